/* What the comparisons share: drawn numbers, buffers that end at a page that must not be touched, and telling a difference. */
#ifndef KIT_H
#define KIT_H

#include "reference.h"

/* ---- random numbers, the same for a seed on every machine ---- */

void seed(uint64_t with);
uint32_t draw(uint32_t below);

/* ---- buffers ---- */

struct buffer {
    uint8_t *start; /* the bytes handed out; before them are marks, and the page after them is not there */
    size_t length;
    uint8_t *page;
};

struct buffer make_buffer(size_t room);

/* the buffer with a length, right before the page, filled with random bytes, and marks before it */
void set_length(struct buffer *b, size_t length);

/* the buffer with these bytes, likewise */
void set_bytes(struct buffer *b, const uint8_t *bytes, size_t length);

int marks_stand(const struct buffer *b);

/* ---- comparing: the first difference is printed and ends the program with status 1 ---- */

/* the frame that is being asked about: it is printed with a difference */
void about(const struct ref_frame *f);

void same(const char *what, unsigned long long library, unsigned long long reference);
void same_bytes(const char *what, const uint8_t *library, const uint8_t *reference, size_t n);

unsigned long long comparisons(void);

#endif
