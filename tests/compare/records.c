/* Records put into buffers, with numbers at and beside their edges. */
#include "subjects.h"

static uint64_t some_gap(void)
{
    static const uint64_t gaps[] = {0,         127,       128,         16383,       16384,         2097151,        2097152,
                                    268435455, 268435456, 34359738367, 34359738368, 4398046511103, (uint64_t)1 << 63, UINT64_MAX};
    return draw(3) ? gaps[draw(sizeof gaps / sizeof gaps[0])] : (uint64_t)draw(1u << 30) << draw(7);
}

void every_record(unsigned long turns)
{
    for (unsigned long i = 0; i < turns; i++) {
        struct ref_frame f = {0};
        f.identifier = draw(3) ? draw(2048) : draw(2) ? 2047 + draw(3) : 0xFFFFFFFF;
        f.remote = draw(8) ? draw(2) : draw(4);
        f.count = draw(8) ? draw(9) : draw(12);
        for (size_t k = 0; k < f.count; k++)
            f.data[k] = (uint8_t)draw(256);
        size_t at = draw(50) ? draw(26) : SIZE_MAX - draw(3);
        check_record(draw(24), at, some_gap(), &f);
    }
}
