/* What the plain picture and the plain bench share: the refusals, and the form of a frame. */
#ifndef PLAIN_BUS_H
#define PLAIN_BUS_H

#include <stddef.h>
#include <stdint.h>

_Static_assert(__BYTE_ORDER__ == __ORDER_LITTLE_ENDIAN__, "rows, LEDs and written frames are laid out low byte first");

enum {
    BAD_IDENTIFIER = 1, BAD_FORM, BAD_PRIORITY, BAD_TYPE, TYPE_NOT_KNOWN, NOT_LISTED, WRONG_LENGTH, WRONG_PRIORITY, BAD_FIELD,
    NO_ROOM, NOTHING_KEPT, NO_SUCH_PLACE, TOO_SHORT, SID0_SET = 17,
};

/* What most frames do not come to: inlined, it would take registers from those that do not. */
#define APART __attribute__((noinline))

static inline uint32_t refuse(unsigned number) { return (uint32_t)number << 16; }

/* A field that is not allowed, with the number of its byte. */
static inline uint32_t refuse_at(unsigned byte) { return refuse(BAD_FIELD) | (uint32_t)byte << 24; }

enum { HIGH = 0, LOW = 3 };

/* A frame's length and priority in one number, so that one test serves both; 0 is the form of no frame. */
#define FORM(length, priority) ((length) << 2 | (priority))

#define H(length) FORM(length, HIGH)
#define L(length) FORM(length, LOW)

static inline unsigned priority_in(uint32_t identifier) { return identifier >> 9; }

static inline unsigned address_in(uint32_t identifier) { return identifier >> 1 & 0xFF; }

/* Whether it is a frame with data, of whatever priority: most are, and one test finds them. */
static inline int has_data(uint32_t identifier, uint32_t remote, size_t count)
{
    return ((identifier & ~UINT32_C(0x7FE)) | remote) == 0 && count - 1 < 8;
}

/* Why it is no frame; 0 where it is one. */
static inline uint32_t refuse_frame(uint32_t identifier, uint32_t remote, size_t count)
{
    if (identifier > 2047)
        return refuse(BAD_IDENTIFIER);
    if (identifier & 1)
        return refuse(SID0_SET);
    if (remote > 1 || count > 8 || remote == (count != 0))
        return refuse(BAD_FORM);
    return priority_in(identifier) == HIGH || priority_in(identifier) == LOW ? 0 : refuse(BAD_PRIORITY);
}

/* Why a command's frame, or none where its form is 0, is not of its form. */
static inline uint32_t refuse_form(unsigned form, size_t count)
{
    return refuse(form == 0 ? NOT_LISTED : form >> 2 != count ? WRONG_LENGTH : WRONG_PRIORITY);
}

#endif
