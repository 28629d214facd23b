/* Rrushvelga: Velbus frames and the picture of an installation, for a C host.
 *
 * Every function takes numbers and byte buffers (a pointer and a length) and returns one result word:
 *
 *     bits 0-15   the value
 *     bits 16-23  the refusal number, 0 where nothing is refused
 *     bits 24-31  of a refusal 9, the number of the data byte; else 0
 *
 * A refused call has value 0 and leaves every buffer as it was. Nothing is required of the caller but that each pointer
 * is good for its length, and that the buffers of one call do not overlap. There is no global state: a picture belongs
 * to one caller at a time, and different pictures may be used from different threads.
 *
 * docs/INTERFACE.md has the layouts and the meaning of each number, docs/CHANGES.md what a host changes from one version to the next.
 */
#ifndef VELBUS_H
#define VELBUS_H

#include <stddef.h>
#include <stdint.h>

#ifdef __cplusplus
extern "C" {
#endif

#define VELBUS_VERSION "4.3.0"    /* velbus.pc takes it from here */

/* ---- refusal numbers ---- */
#define VELBUS_BAD_IDENTIFIER 1   /* identifier above 2047 */
#define VELBUS_BAD_FORM 2         /* remote flag not 0 or 1, over 8 data bytes, remote with data, or not remote without */
#define VELBUS_BAD_PRIORITY 3     /* priority 1 or 2 */
#define VELBUS_BAD_TYPE 4         /* a module type that is not known here */
#define VELBUS_TYPE_NOT_KNOWN 5   /* the type of the address is not known; in a question: no module is listed there */
#define VELBUS_NOT_LISTED 6       /* the command is not in the type's list; in velbus_write also: the bytes are no message */
#define VELBUS_WRONG_LENGTH 7     /* the length is not the command's */
#define VELBUS_WRONG_PRIORITY 8   /* the priority is not the command's */
#define VELBUS_BAD_FIELD 9        /* a field is not allowed: velbus_place has its byte */
#define VELBUS_NO_ROOM 10         /* the address is not listed, and 16 modules are */
#define VELBUS_NOTHING_KEPT 11    /* a step back with none kept */
#define VELBUS_NO_SUCH_PLACE 12   /* the type has no such cell, name, LED or blind; or no way back is so deep */
#define VELBUS_TOO_SHORT 13       /* a buffer is too short, or a place lies beyond its end */
/* 14 is withdrawn: no call gives it */
#define VELBUS_CUT_OFF 15         /* the recording ends inside a record */
#define VELBUS_BAD_NUMBER 16      /* a number of a recording is too long, too large or not shortest */
#define VELBUS_SID0 17            /* SID0, the lowest bit of the identifier, is 1 */

/* ---- values ---- */
#define VELBUS_UNKNOWN 256        /* not heard: no byte has this value */

#define VELBUS_NO_TYPE 0x00       /* handed to velbus_read and velbus_write: the type is not known */
#define VELBUS_VMB1BL 0x03
#define VELBUS_VMB2BL 0x09
#define VELBUS_VMB8IR 0x0A

enum { VELBUS_LED_OFF = 0, VELBUS_LED_ON = 1, VELBUS_LED_SLOW = 2, VELBUS_LED_FAST = 3, VELBUS_LED_VERY_FAST = 4 };
enum { VELBUS_BLIND_OFF = 0, VELBUS_BLIND_UP = 1, VELBUS_BLIND_DOWN = 2 };

#define VELBUS_MODULES 16         /* the most modules of a picture */
#define VELBUS_DEPTH 64           /* the greatest depth of a picture's way back, and the one that naming none gives */
#define VELBUS_PICTURE_SIZE 18992 /* bytes of a picture; velbus_picture_size() gives the same number */
#define VELBUS_MESSAGE_SIZE 20    /* bytes of a message */
#define VELBUS_FRAME_SIZE 12      /* bytes of a written frame */
#define VELBUS_BENCH_SIZE 514     /* bytes of a bench; velbus_bench_size() gives the same number */
#define VELBUS_BENCH_CELLS 256    /* bytes that a bench's cells are named by */
#define VELBUS_BENCH_REPLIES 64   /* the most replies of a bench to one frame: a buffer of so many frames is enough for any */
#define VELBUS_DATA_SIZE 8        /* the most data bytes of a frame */
#define VELBUS_NAME_LENGTH 16     /* characters of a name */
#define VELBUS_NAME_SIZE 32       /* bytes that velbus_name fills, two for each character */
#define VELBUS_LISTED_SIZE 256    /* bytes that velbus_listed fills, one for each address */
#define VELBUS_ROW_SIZE 512       /* the most bytes that velbus_memory_row fills, for the type with the most cells */
#define VELBUS_PLAN_SIZE 128      /* the most bytes that velbus_plan fills: two for each block of four cells */

/* A message as it lies in its 20 bytes; numbers of more than one byte are low byte first. A field that a message does
 * not have is 0. */
enum {
    VELBUS_AT_WHAT = 0,      /* which message: VELBUS_TYPE_REQUEST .. VELBUS_TYPE_VMB2BL */
    VELBUS_AT_ADDRESS = 1,   /* bus address */
    VELBUS_AT_CHANNEL = 2,   /* channel, blind or button, as on the bus */
    VELBUS_AT_GLOW = 3,      /* LED state of VELBUS_LEDS */
    VELBUS_AT_LOCATION = 4,  /* memory location, two bytes */
    VELBUS_AT_BYTES = 6,     /* up to six bytes, in the order of the frame */
    VELBUS_AT_TIME = 12,     /* VELBUS_NO_TIME .. VELBUS_SECONDS */
    VELBUS_AT_SECONDS = 16   /* seconds, four bytes, of VELBUS_SECONDS */
};

enum {
    VELBUS_TYPE_REQUEST = 0,
    VELBUS_TYPE_VMB8IR = 1,   /* FF: bytes serial high, serial low, memory map, build year, build week */
    VELBUS_TYPE_VMB1BL = 2,   /* FF: bytes time-out, build year, build week */
    VELBUS_BUTTONS = 3,       /* 00: three bytes */
    VELBUS_CELL_TOLD = 4,     /* FE: location, one byte */
    VELBUS_BLOCK_TOLD = 5,    /* CC: location, four bytes */
    VELBUS_CELL_ASKED = 6,    /* FD: location */
    VELBUS_BLOCK_ASKED = 7,   /* C9: location */
    VELBUS_DUMP_ASKED = 8,    /* CB */
    VELBUS_CELL_SET = 9,      /* FC: location, one byte */
    VELBUS_BLOCK_SET = 10,    /* CA: location, four bytes */
    VELBUS_ERRORS = 11,       /* DA: three bytes */
    VELBUS_ERRORS_ASKED = 12, /* D9 */
    VELBUS_NAME_ONE = 13,     /* F0: channel, six bytes */
    VELBUS_NAME_TWO = 14,     /* F1: channel, six bytes */
    VELBUS_NAME_THREE = 15,   /* F2: channel, four bytes */
    VELBUS_NAME_ASKED = 16,   /* EF: channel; of a VMB1BL or VMB2BL any of its channels put together (bitwise or) */
    VELBUS_STATUS_ASKED = 17, /* FA: channel */
    VELBUS_INPUT_STATUS = 18, /* EB: four bytes */
    VELBUS_LEDS_ALL = 19,     /* F4: bytes on, slow, fast */
    VELBUS_LEDS = 20,         /* F5 to F9: glow, and the byte that names the LEDs */
    VELBUS_BLIND_STATUS = 21, /* EC: channel, six bytes */
    VELBUS_BLIND_STOP = 22,   /* 04: channel */
    VELBUS_BLIND_UP_FOR = 23, /* 05: channel, time */
    VELBUS_BLIND_DOWN_FOR = 24, /* 06: channel, time */
    VELBUS_TYPE_VMB2BL = 25   /* FF: bytes time-outs (bits 0 and 1 blind 1's, 2 and 3 blind 2's), build year, build week */
};

enum { VELBUS_NO_TIME = 0, VELBUS_DIP_SWITCH = 1, VELBUS_PERMANENTLY = 2, VELBUS_SECONDS = 3 };

/* ---- the parts of a result word ---- */
static inline uint32_t velbus_value(uint32_t word) { return word & 0xFFFFu; }
static inline uint32_t velbus_refusal(uint32_t word) { return word >> 16 & 0xFFu; }

/* The data byte of a refusal 9, counted from 1 as the module documents do; 0 for every other word. It is the first, from the left, that no
 * allowed choice of the later bytes can repair: of FE 01 90 2A, a VMB1BL's cell H'0190', that is 2, for no low byte makes H'01xx' a cell of it;
 * of FE 00 90 2A it is 3. velbus_write gives the byte of the frame that the message would be, and 3 for a time that is not legal. */
static inline uint32_t velbus_place(uint32_t word) { return word >> 24; }

/* ---- frames ---- */

/* Reads a frame as a message, by the module type known for its address (VELBUS_NO_TYPE: none known).
 * Value: the bytes written to message, VELBUS_MESSAGE_SIZE. Refuses 4, 1, 2, 3, then 7, 4, 5, 6, 7, 8, 9 as the command has it;
 * last 13, for a message buffer under VELBUS_MESSAGE_SIZE. */
uint32_t velbus_read(uint32_t type, uint32_t identifier, uint32_t remote, const uint8_t *data, size_t data_len,
                     uint8_t *message, size_t message_len);

/* Writes a message as a frame: identifier low, identifier high, remote flag, count, eight data bytes (0 past the count).
 * Value: the bytes written to frame, VELBUS_FRAME_SIZE. Refuses 13 for a message buffer under VELBUS_MESSAGE_SIZE, 4 for a
 * bad type handed in, 6 for bytes that are no message, then 4, 5, 6, 9; last 13, for a frame buffer under VELBUS_FRAME_SIZE. */
uint32_t velbus_write(uint32_t type, const uint8_t *message, size_t message_len, uint8_t *frame, size_t frame_len);

/* ---- the picture: VELBUS_PICTURE_SIZE bytes that the caller lends; fewer are 13, before anything else ---- */

/* The bytes that a picture needs, as a bare number. */
uint32_t velbus_picture_size(void);

/* Makes the bytes a fresh picture: no module, nothing kept, and a way back of VELBUS_DEPTH steps. */
uint32_t velbus_fresh(uint8_t *picture, size_t picture_len);

/* The same with a way back of so many steps, 0 to VELBUS_DEPTH; with 0 no step back is ever granted. Refuses 12 for more. */
uint32_t velbus_fresh_depth(uint8_t *picture, size_t picture_len, uint32_t depth);

/* Hears a frame. Refuses as velbus_read does with the picture's own type for the address, then 10. */
uint32_t velbus_hear(uint8_t *picture, size_t picture_len, uint32_t identifier, uint32_t remote, const uint8_t *data,
                     size_t data_len);

/* Strikes off the last standing frame. Refuses 11 where none is kept. */
uint32_t velbus_step_back(uint8_t *picture, size_t picture_len);

/* The number of steps back that would be granted. */
uint32_t velbus_kept(const uint8_t *picture, size_t picture_len);

/* Which addresses are listed: VELBUS_LISTED_SIZE bytes into out, 1 or 0. Refuses 13 for fewer. */
uint32_t velbus_listed(const uint8_t *picture, size_t picture_len, uint8_t *out, size_t out_len);

/* Of a listed module: its type, build year, build week. Refuse 5. */
uint32_t velbus_type(const uint8_t *picture, size_t picture_len, uint32_t address);
uint32_t velbus_build_year(const uint8_t *picture, size_t picture_len, uint32_t address);
uint32_t velbus_build_week(const uint8_t *picture, size_t picture_len, uint32_t address);

/* A memory cell: 0 to 255, or VELBUS_UNKNOWN. Refuses 5, 12. */
uint32_t velbus_cell(const uint8_t *picture, size_t picture_len, uint32_t address, uint32_t location);

/* An LED, from 1: VELBUS_LED_OFF .. VELBUS_LED_VERY_FAST, or VELBUS_UNKNOWN. Refuses 5, 12. */
uint32_t velbus_led(const uint8_t *picture, size_t picture_len, uint32_t address, uint32_t led);

/* A blind, from 1: VELBUS_BLIND_OFF, _UP, _DOWN, or VELBUS_UNKNOWN. Refuses 5, 12. */
uint32_t velbus_blind(const uint8_t *picture, size_t picture_len, uint32_t address, uint32_t blind);

/* The characters of a name, from 1, two bytes each, low byte first: 0 to 255, or VELBUS_UNKNOWN. Value: how many of them were heard; the name
 * is whole exactly if that is VELBUS_NAME_LENGTH. A VMB8IR's characters are cells of its memory, 16 a name, from cell 0. Refuses 5, 12, 13. */
uint32_t velbus_name(const uint8_t *picture, size_t picture_len, uint32_t address, uint32_t name, uint8_t *out,
                     size_t out_len);

/* Every cell of a module, two bytes each, low byte first: 0 to 255, or VELBUS_UNKNOWN. VELBUS_ROW_SIZE bytes are enough for any type.
 * Refuses 5, 13. */
uint32_t velbus_memory_row(const uint8_t *picture, size_t picture_len, uint32_t address, uint8_t *out, size_t out_len);

/* The plan of reads: the fewest block reads (C9) that together read every cell of a module that is not heard, by their starts, two bytes each, low byte
 * first, rising. Value: how many they are, 0 where every cell is told; bytes beyond them keep theirs. VELBUS_PLAN_SIZE bytes are enough for any type.
 * Refuses 5, 13. */
uint32_t velbus_plan(const uint8_t *picture, size_t picture_len, uint32_t address, uint8_t *out, size_t out_len);

/* A proposed plan, from any program and in any order, its starts as velbus_plan gives them. Value: 1 exactly if every start is allowed for the module's
 * type, no cell that is not heard is missed, and no shorter list would do; else 0. An odd last byte is no start, so that such bytes are 0. Refuses 5. */
uint32_t velbus_right_plan(const uint8_t *picture, size_t picture_len, uint32_t address, const uint8_t *starts, size_t starts_len);

/* ---- a bench: a VMB8IR to teach on, in VELBUS_BENCH_SIZE bytes that the caller lends; fewer are 13, before anything else ---- */

/* The bytes that a bench needs, as a bare number. */
uint32_t velbus_bench_size(void);

/* Makes the bytes a bench at an address, with the first VELBUS_BENCH_CELLS of cells as its memory; its LEDs are off. Its serial number is that of
 * cells H'00FE' and H'00FF'. Refuses 13 for too few cells, 5 for an address above 255, 9 with byte 1 for address 0. */
uint32_t velbus_bench_new(uint8_t *bench, size_t bench_len, uint32_t address, const uint8_t *cells, size_t cells_len,
                          uint8_t map_version, uint8_t build_year, uint8_t build_week);

/* Hands the bench a frame. Value: the number of replies in out, VELBUS_FRAME_SIZE bytes each, as velbus_write gives a frame; 0 for a frame at another
 * address, which changes nothing. Refuses 1, 17, 2, 3; then, at its own address, 6 for a command that only a module sends; then as velbus_read does
 * with type VELBUS_VMB8IR; last 13, for too short a buffer. A refused frame stores nothing. */
uint32_t velbus_bench_take(uint8_t *bench, size_t bench_len, uint32_t identifier, uint32_t remote, const uint8_t *data,
                           size_t data_len, uint8_t *out, size_t out_len);

/* ---- recordings ---- */

/* Puts a record into buffer at the place `at`. Value: the bytes written. Refuses 16 (gap above 34359738367, identifier above 2047,
 * remote flag not 0 or 1, over 8 data bytes), then 13. */
uint32_t velbus_put_record(uint8_t *buffer, size_t buffer_len, size_t at, uint64_t gap, uint32_t identifier,
                           uint32_t remote, const uint8_t *data, size_t data_len);

#ifdef __cplusplus
}
#endif

#endif
