/* The plan of reads, and proposed plans. */
#include "checks.h"

#include "velbus.h"

enum { MOST = 80 };

void check_plan(uint32_t address, size_t length)
{
    const struct ref_module *m = ref_module_at(&reference, address);
    unsigned starts[64], count = m ? ref_plan(m, starts) : 0;
    unsigned refusal = !m ? VELBUS_TYPE_NOT_KNOWN : length / 2 < count ? VELBUS_TOO_SHORT : 0;
    uint8_t laid[VELBUS_PLAN_SIZE];
    for (unsigned i = 0; i < count; i++) {
        laid[2 * i] = (uint8_t)starts[i];
        laid[2 * i + 1] = (uint8_t)(starts[i] >> 8);
    }
    if (m)
        same("the reference's plan has the least number of reads", count, ref_least_reads(m));
    set_out(length);
    same("plan", velbus_plan(picture.start, picture.length, address, out.start, length), refusal ? refused(refusal) : count);
    same_out("plan", refusal, laid, 2 * count);
}

void check_right_plan(uint32_t address, const unsigned *starts, size_t count, unsigned odd)
{
    static uint8_t bytes[2 * MOST + 1];
    const struct ref_module *m = ref_module_at(&reference, address);
    for (size_t i = 0; i < count; i++) {
        bytes[2 * i] = (uint8_t)starts[i];
        bytes[2 * i + 1] = (uint8_t)(starts[i] >> 8);
    }
    bytes[2 * count] = (uint8_t)draw(256);
    set_bytes(&out, bytes, 2 * count + odd);
    uint32_t word = velbus_right_plan(picture.start, picture.length, address, out.start, out.length);
    same("right plan", word, !m ? refused(VELBUS_TYPE_NOT_KNOWN) : odd ? 0 : ref_right_plan(m, starts, count));
}

void check_proposed(uint32_t address)
{
    const struct ref_module *m = ref_module_at(&reference, address);
    unsigned starts[MOST], count = m ? ref_plan(m, starts) : draw(4);
    for (unsigned i = 0; !m && i < count; i++)
        starts[i] = draw(256);
    for (unsigned turns = draw(3) ? count : 0; turns; turns--) { /* two starts change places */
        unsigned i = draw(count), j = draw(count), start = starts[i];
        starts[i] = starts[j];
        starts[j] = start;
    }
    switch (count ? draw(7) : 6) {
    case 0: starts[draw(count)] -= draw(4); break; /* moved down: right still, or past 0 and no start */
    case 1: starts[draw(count)] += draw(4); break;
    case 2: count--; break;
    case 3: starts[draw(count)] = starts[draw(count)]; break;
    case 4: starts[draw(count)] = draw(65536); break;
    case 5: starts[count++] = draw(260); break;
    default: break;
    }
    for (unsigned i = 0; i < count; i++)
        starts[i] &= 0xFFFF;
    check_right_plan(address, starts, count, draw(6) == 0);
}
