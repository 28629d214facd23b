/* Records of a recording, put into a buffer. */
#include "reference.h"

#include <string.h>

/* a number in groups of seven bits, low group first; the count of bytes */
static size_t put_number(uint8_t *to, uint64_t value)
{
    size_t n = 0;
    for (; value > 127; value >>= 7)
        to[n++] = (uint8_t)(value | 0x80);
    to[n++] = (uint8_t)value;
    return n;
}

unsigned ref_put_record(uint8_t *buffer, size_t length, size_t at, uint64_t gap, const struct ref_frame *f, size_t *put)
{
    uint8_t record[5 + 2 + 1 + 8];
    if (gap > 34359738367 || f->identifier > 2047 || f->remote > 1 || f->count > 8)
        return 16;
    size_t n = put_number(record, gap);
    n += put_number(record + n, 2 * f->identifier + f->remote);
    n += put_number(record + n, f->count);
    memcpy(record + n, f->data, f->count);
    n += f->count;
    if (at > length || length - at < n)
        return 13;
    memcpy(buffer + at, record, n);
    *put = n;
    return 0;
}
