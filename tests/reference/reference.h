/* A second implementation of the rules, written from the papers and the layouts of docs/INTERFACE.md and not from the proved code,
 * and made differently on purpose: it keeps the standing frames themselves and works every answer out from them anew. Slow and
 * plain; it is what the library is compared with. It shares no number with the header, and no table with the tests. */
#ifndef REFERENCE_H
#define REFERENCE_H

#include <stddef.h>
#include <stdint.h>

struct ref_frame {
    uint32_t identifier;
    uint32_t remote;
    size_t count;
    uint8_t data[16]; /* more than eight, so that too long a frame can be asked about */
};

/* ---- reading and writing ---- */

/* a refusal with the number of a data byte, from 1 */
#define REF_AT(number, byte) ((unsigned)(number) + 256 * (unsigned)(byte))

/* the refusal, 0 for none and a 9 with its byte; a message that is read is laid into message */
unsigned ref_read(uint32_t type, const struct ref_frame *frame, uint8_t message[20]);

/* the refusal, a 9 with its byte; a frame that is written is laid into frame */
unsigned ref_write(uint32_t type, const uint8_t message[20], uint8_t frame[12]);

/* the name that a channel byte of a type stands for, from 1; 0 where it stands for none */
unsigned ref_name_of(unsigned type, unsigned channel);

/* the blind that it stands for, from 1; 0 where it stands for none */
unsigned ref_blind_of(unsigned type, unsigned channel);

/* ---- the picture ---- */

enum { REF_VMB1BL = 0x03, REF_VMB2BL = 0x09, REF_VMB8IR = 0x0A, REF_UNKNOWN = 256 };

enum {
    REF_MODULES = 16,
    REF_DEPTH = 64,   /* the greatest depth of the way back, and the one that naming none gives */
    REF_STANDING = 96 /* frames that are kept: more than can be struck off */
};

struct ref_module {
    unsigned address, type;
    int year, week;
    int cell[256];
    int character[8][16];
    int led[8];
    int blind[2];
};

struct ref_modules {
    size_t count;
    struct ref_module module[REF_MODULES];
};

struct ref_picture {
    struct ref_modules settled; /* by the frames before the standing ones: none of them can be struck off any more */
    size_t frames;
    struct ref_frame standing[REF_STANDING];
    unsigned depth, kept;
    struct ref_modules now; /* worked out anew from both at every change */
};

/* the refusal number; a picture that is refused the depth stays as it was */
unsigned ref_fresh(struct ref_picture *p, uint32_t depth);
unsigned ref_hear(struct ref_picture *p, const struct ref_frame *frame);
unsigned ref_step_back(struct ref_picture *p);

/* the module at an address, or NULL */
struct ref_module *ref_module_at(struct ref_picture *p, uint32_t address);

unsigned ref_cells(unsigned type);
unsigned ref_names(unsigned type);
unsigned ref_leds(unsigned type);
unsigned ref_blinds(unsigned type);

/* ---- the plan of reads ---- */

/* the starts of the plan that the request's words give, and how many they are */
unsigned ref_plan(const struct ref_module *m, unsigned starts[64]);

/* the least number of block reads that read every unknown cell, found over all of them */
unsigned ref_least_reads(const struct ref_module *m);

/* 1 where the starts are a right plan, else 0 */
unsigned ref_right_plan(const struct ref_module *m, const unsigned *starts, size_t count);

/* ---- a bench ---- */

struct ref_bench {
    uint8_t address, version, year, week;
    uint8_t memory[256];
    uint8_t on, slow, fast; /* a bit for each LED; both blink bits are very fast */
};

/* the refusal, a 9 with its byte; one that is refused stays as it was */
unsigned ref_bench_new(struct ref_bench *b, uint32_t address, const uint8_t cells[256], uint8_t version, uint8_t year, uint8_t week);

/* the refusal, a 9 with its byte; else count is the number of replies, which stand in replies. `room` is the length of the buffer lent */
unsigned ref_bench_take(struct ref_bench *b, const struct ref_frame *frame, size_t room, uint8_t replies[64][12], size_t *count);

/* ---- recordings ---- */

/* the refusal number; a record that is put is laid into buffer at `at`, and put is its length */
unsigned ref_put_record(uint8_t *buffer, size_t length, size_t at, uint64_t gap, const struct ref_frame *frame, size_t *put);

#endif
