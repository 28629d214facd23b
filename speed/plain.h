/* The same library as include/velbus.h, as a good engineer would write it in C without proofs: what the proved one is measured against.
 *
 * The calls that a gateway makes most, a name, and the plan of reads. Each answers the result word of velbus.h: the value, or the refusal with its byte. */
#ifndef PLAIN_H
#define PLAIN_H

#include <stddef.h>
#include <stdint.h>

enum { PLAIN_MODULES = 16, PLAIN_DEPTH = 64, PLAIN_CELLS = 256, PLAIN_NAMES = 8, PLAIN_NAME_SIZE = 16 };
enum { PLAIN_UNKNOWN = 256, PLAIN_BLOCK = 4 };
enum { PLAIN_RUN = 16 }; /* the most bytes that one frame changes, but for an entry */

/* The kinds of module, numbered for the tables. */
enum plain_kind { PLAIN_NO_MODULE, PLAIN_VMB8IR, PLAIN_VMB1BL, PLAIN_VMB2BL, PLAIN_KINDS };

/* A cell or character is 0 to 255 or PLAIN_UNKNOWN (a VMB8IR's characters are cells); an LED or a blind is a byte, 255 for unknown. */
struct plain_module {
    uint16_t cell[PLAIN_CELLS];
    uint16_t character[PLAIN_NAMES][PLAIN_NAME_SIZE];
    uint64_t leds; /* LED 1 in the lowest byte */
    uint8_t kind;
    uint8_t address;
    uint8_t blind[2];
    uint8_t build[2];
    uint8_t past[242]; /* to 1024 bytes: a run from any field lies in the module, and a slot is found by a shift */
};

/* What a step back needs: bytes of the picture as they were. */
struct plain_step {
    _Alignas(32) uint8_t old[PLAIN_RUN]; /* aligned so that a step is found by a shift */
    uint32_t start; /* from the picture's first byte; or PLAIN_NOTHING, PLAIN_ENTERED, where no module lies */
};

enum { PLAIN_NOTHING, PLAIN_ENTERED };

struct plain_picture {
    uint8_t modules;
    uint8_t kept;
    uint8_t next;
    uint8_t depth; /* at most PLAIN_DEPTH */
    uint8_t slot[256];                             /* of each address; PLAIN_MODULES where none is listed */
    struct plain_module module[PLAIN_MODULES + 1]; /* the last stands for every address that is not listed */
    struct plain_step step[PLAIN_DEPTH];
};

uint32_t plain_fresh(struct plain_picture *p, uint32_t depth);
uint32_t plain_hear(struct plain_picture *p, uint32_t identifier, uint32_t remote, const uint8_t *restrict data,
                    size_t count);
uint32_t plain_step_back(struct plain_picture *p);
uint32_t plain_cell(const struct plain_picture *p, uint32_t address, uint32_t location);
uint32_t plain_memory_row(const struct plain_picture *p, uint32_t address, uint8_t *out, size_t out_len);
uint32_t plain_name(const struct plain_picture *p, uint32_t address, uint32_t name, uint8_t *out, size_t out_len);
uint32_t plain_plan(const struct plain_picture *p, uint32_t address, uint8_t *out, size_t out_len);

/* For the listing: how many names are whole, and how many cells are told. */
unsigned plain_whole_names(const struct plain_module *m);
unsigned plain_told_cells(const struct plain_module *m);
unsigned plain_type(const struct plain_module *m);

#endif
