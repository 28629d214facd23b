/* The bench of request W-214, from its words and document 001: it keeps its memory and three bit masks of its LEDs, as a module's own
 * program might, and no state for each LED. */
#include "reference.h"

#include <string.h>

enum { LOW_PRIORITY = 3, ONLY_SENT = 6, NO_ROOM = 13 };

unsigned ref_bench_new(struct ref_bench *b, uint32_t address, const uint8_t cells[256], uint8_t version, uint8_t year, uint8_t week)
{
    if (address > 255)
        return 5;
    if (address == 0)
        return REF_AT(9, 1);
    *b = (struct ref_bench){.address = (uint8_t)address, .version = version, .year = year, .week = week};
    memcpy(b->memory, cells, sizeof b->memory);
    return 0;
}

/* a reply, in the next twelve bytes */
static void say(const struct ref_bench *b, uint8_t (**next)[12], size_t count, const uint8_t *data)
{
    unsigned identifier = LOW_PRIORITY * 512u + b->address * 2u;
    uint8_t *frame = **next;
    memset(frame, 0, 12);
    frame[0] = (uint8_t)identifier;
    frame[1] = (uint8_t)(identifier >> 8);
    frame[3] = (uint8_t)count;
    memcpy(frame + 4, data, count);
    ++*next;
}

static void say_block(const struct ref_bench *b, uint8_t (**next)[12], unsigned start)
{
    const uint8_t *m = b->memory + start;
    say(b, next, 7, (uint8_t[]){0xCC, 0, (uint8_t)start, m[0], m[1], m[2], m[3]});
}

static void say_name(const struct ref_bench *b, uint8_t (**next)[12], uint8_t channel)
{
    static const struct { uint8_t command, from, count; } parts[] = {{0xF0, 0, 6}, {0xF1, 6, 6}, {0xF2, 12, 4}};
    const uint8_t *name = b->memory;
    for (unsigned bit = channel; bit > 1; bit >>= 1)
        name += 16;
    for (unsigned p = 0; p < 3; p++) {
        uint8_t data[8] = {parts[p].command, channel};
        memcpy(data + 2, name + parts[p].from, parts[p].count);
        say(b, next, 2u + parts[p].count, data);
    }
}

/* the LEDs of a mask are on, slow and fast or not; both blink bits are very fast */
static void light(struct ref_bench *b, uint8_t mask, int on, int slow, int fast)
{
    b->on = (uint8_t)((b->on & ~mask) | (on ? mask : 0));
    b->slow = (uint8_t)((b->slow & ~mask) | (slow ? mask : 0));
    b->fast = (uint8_t)((b->fast & ~mask) | (fast ? mask : 0));
}

/* F4: the on bit wins, so the two others say nothing then */
static void light_all(struct ref_bench *b, uint8_t on, uint8_t slow, uint8_t fast)
{
    b->on = on;
    b->slow = (uint8_t)(slow & ~on);
    b->fast = (uint8_t)(fast & ~on);
}

static void take(struct ref_bench *b, const uint8_t *d, uint8_t (**next)[12])
{
    switch (d[0]) {
    case 0xEF: say_name(b, next, d[1]); break;
    case 0xFA: say(b, next, 5, (uint8_t[]){0xEB, 0, b->on, b->slow, b->fast}); break;
    case 0xFD: say(b, next, 4, (uint8_t[]){0xFE, 0, d[2], b->memory[d[2]]}); break;
    case 0xC9: say_block(b, next, d[2]); break;
    case 0xCB:
        for (unsigned start = 0; start < 256; start += 4)
            say_block(b, next, start);
        break;
    case 0xFC: b->memory[d[2]] = d[3]; break;
    case 0xCA:
        memcpy(b->memory + d[2], d + 3, 4);
        say_block(b, next, d[2]);
        break;
    case 0xD9: say(b, next, 4, (uint8_t[]){0xDA, 0, 0, 0}); break;
    case 0xF4: light_all(b, d[1], d[2], d[3]); break;
    case 0xF5: light(b, d[1], 0, 0, 0); break;
    case 0xF6: light(b, d[1], 1, 0, 0); break;
    case 0xF7: light(b, d[1], 0, 1, 0); break;
    case 0xF8: light(b, d[1], 0, 0, 1); break;
    case 0xF9: light(b, d[1], 0, 1, 1); break;
    }
}

/* the commands that only a module sends */
static int only_sent(uint8_t command) { return memchr("\x00\xFE\xCC\xDA\xF0\xF1\xF2\xEB\xFF", command, 9) != NULL; }

unsigned ref_bench_take(struct ref_bench *b, const struct ref_frame *f, size_t room, uint8_t replies[64][12], size_t *count)
{
    uint8_t message[20], (*next)[12] = replies;
    unsigned refusal = ref_read(REF_VMB8IR, f, message);
    *count = 0;
    if (refusal == 1 || refusal == 17 || refusal == 2 || refusal == 3)
        return refusal;
    if (f->identifier >> 1 != (f->identifier >> 9 << 8 | b->address))
        return 0;
    if (!f->remote && only_sent(f->data[0]))
        return ONLY_SENT;
    if (refusal)
        return refusal;
    struct ref_bench after = *b;
    if (f->remote)
        say(b, &next, 7, (uint8_t[]){0xFF, REF_VMB8IR, b->memory[0xFE], b->memory[0xFF], b->version, b->year, b->week});
    else
        take(&after, f->data, &next);
    if ((size_t)(next - replies) * 12 > room)
        return NO_ROOM;
    *b = after;
    *count = (size_t)(next - replies);
    return 0;
}
