/* One call, put to the library and to the second implementation, and every answer and buffer compared. */
#ifndef CHECKS_H
#define CHECKS_H

#include "kit.h"

extern struct buffer picture;        /* the library's */
extern struct ref_picture reference; /* the second implementation's of the same events */
extern struct buffer data_in, out;   /* lent to the library: data of frames, and what it fills */

void make_buffers(void);

/* the result word of a refusal, a 9 with its byte */
uint32_t refused(unsigned refusal);

/* reads a frame into a message buffer of a length; what is read is written again too */
void check_read(uint32_t type, const struct ref_frame *f, size_t length);

/* writes a message into a frame buffer; of the message's 20 bytes only `given` are handed over */
void check_write(uint32_t type, const uint8_t message[20], size_t given, size_t length);

void check_record(size_t length, size_t at, uint64_t gap, const struct ref_frame *f);

/* the buffer lent with a length, to be compared after the call: what was to be laid there lies there, unless it is refused, and all else is as it was */
void set_out(size_t length);
void same_out(const char *what, unsigned refusal, const uint8_t *laid, size_t n);

/* ---- events on both pictures ---- */

/* naming no depth; and one, which may be refused and then changes nothing */
void check_fresh(void);
void check_fresh_depth(uint32_t depth);
void check_hear(const struct ref_frame *f);
void check_step_back(void);

/* ---- questions of both pictures; length is that of the buffer lent ---- */

void check_kept(void);
void check_listed(size_t length);
void check_build(uint32_t address);
void check_cell(uint32_t address, uint32_t location);
void check_led(uint32_t address, uint32_t led);
void check_blind(uint32_t address, uint32_t blind);
void check_name(uint32_t address, uint32_t name, size_t length);
void check_row(uint32_t address, size_t length);
void check_plan(uint32_t address, size_t length);

/* a proposed plan of so many starts, and maybe an odd byte after them */
void check_right_plan(uint32_t address, const unsigned *starts, size_t count, unsigned odd);

/* the plan, changed now and then: in another order, a start moved, one more or one fewer, one twice, an odd byte */
void check_proposed(uint32_t address);

#endif
