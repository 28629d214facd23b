#include "plain_bench.h"
#include "plain_bus.h"

#include <string.h>

enum { FRAME_SIZE = 12, BLOCK = 4, NAME = 16, LAST_START = PLAIN_BENCH_CELLS - BLOCK };

/* What is done for a command. */
enum deed { NAME_ASKED, STATUS_ASKED, CELL_ASKED, BLOCK_ASKED, ALL_ASKED, CELL_SET, BLOCK_SET, ERRORS_ASKED, LEDS_ALL, LEDS };

static const struct {
    uint8_t form, deed;
} rules[256] = {
    [0xEF] = {L(2), NAME_ASKED}, [0xFA] = {L(2), STATUS_ASKED}, [0xFD] = {L(3), CELL_ASKED},   [0xC9] = {L(3), BLOCK_ASKED},
    [0xCB] = {L(1), ALL_ASKED},  [0xFC] = {L(4), CELL_SET},     [0xCA] = {L(7), BLOCK_SET},    [0xD9] = {L(1), ERRORS_ASKED},
    [0xF4] = {L(4), LEDS_ALL},   [0xF5] = {L(2), LEDS},         [0xF6] = {L(2), LEDS},         [0xF7] = {L(2), LEDS},
    [0xF8] = {L(2), LEDS},       [0xF9] = {L(2), LEDS},
};

static inline uint64_t bytes_at(const uint8_t *at, size_t n)
{
    uint64_t bytes = 0;
    memcpy(&bytes, at, n);
    return bytes;
}

/* Puts a frame. A reply goes by the identifier that it was asked with: each is of lowest priority, as every question is. */
static inline void put(uint8_t *out, uint32_t identifier, unsigned count, uint64_t data)
{
    uint32_t head = identifier | (uint32_t)count << 24;
    memcpy(out, &head, sizeof head);
    memcpy(out + sizeof head, &data, sizeof data);
}

static inline void put_block(uint8_t *out, uint32_t identifier, const struct plain_bench *b, unsigned start)
{
    put(out, identifier, 7, 0xCC | (uint64_t)start << 16 | bytes_at(b->cell + start, BLOCK) << 24);
}

/* One frame as the reply. */
static inline uint32_t reply(uint8_t *out, size_t out_len, uint32_t identifier, unsigned count, uint64_t data)
{
    if (out_len < FRAME_SIZE)
        return refuse(TOO_SHORT);
    put(out, identifier, count, data);
    return 1;
}

static inline uint32_t reply_type(const struct plain_bench *b, uint32_t identifier, uint8_t *out, size_t out_len)
{
    const uint8_t data[8] = {0xFF, 0x0A, b->cell[0xFE], b->cell[0xFF], b->map_version, b->build_year, b->build_week};
    return reply(out, out_len, identifier, 7, bytes_at(data, sizeof data));
}

static inline uint32_t reply_name(const struct plain_bench *b, uint32_t identifier, uint8_t channel, uint8_t *restrict out, size_t out_len)
{
    if (channel == 0 || (channel & (channel - 1)) != 0)
        return refuse_at(2);
    if (out_len < 3 * FRAME_SIZE)
        return refuse(TOO_SHORT);
    const uint8_t *name = b->cell + NAME * __builtin_ctz(channel);
    uint64_t head = (uint64_t)channel << 8;
    put(out, identifier, 8, 0xF0 | head | bytes_at(name, 8) << 16);
    put(out + FRAME_SIZE, identifier, 8, 0xF1 | head | bytes_at(name + 6, 8) << 16);
    put(out + 2 * FRAME_SIZE, identifier, 6, 0xF2 | head | bytes_at(name + 12, 4) << 16);
    return 3;
}

static inline uint32_t reply_all(const struct plain_bench *b, uint32_t identifier, uint8_t *restrict out, size_t out_len)
{
    if (out_len < PLAIN_BENCH_CELLS / BLOCK * FRAME_SIZE)
        return refuse(TOO_SHORT);
    for (unsigned start = 0; start < PLAIN_BENCH_CELLS; start += BLOCK, out += FRAME_SIZE)
        put_block(out, identifier, b, start);
    return PLAIN_BENCH_CELLS / BLOCK;
}

/* A block, which is stored first where data are handed over. */
static inline uint32_t reply_block(struct plain_bench *b, uint32_t identifier, const uint8_t *d, const uint8_t *stored, uint8_t *restrict out, size_t out_len)
{
    if (d[1] != 0 || d[2] > LAST_START)
        return refuse_at(d[1] != 0 ? 2 : 3);
    if (out_len < FRAME_SIZE)
        return refuse(TOO_SHORT);
    if (stored)
        memcpy(b->cell + d[2], stored, BLOCK);
    put_block(out, identifier, b, d[2]);
    return 1;
}

static inline uint32_t store_cell(struct plain_bench *b, const uint8_t *d)
{
    if (d[1] != 0)
        return refuse_at(2);
    b->cell[d[2]] = d[3];
    return 0;
}

static inline uint32_t set_leds(struct plain_bench *b, uint8_t on, uint8_t slow, uint8_t fast)
{
    b->leds = (uint32_t)on | (uint32_t)(slow & ~on) << 8 | (uint32_t)(fast & ~on) << 16;
    return 0;
}

/* F5 to F9: off, on, slow, fast, very fast. */
static inline uint32_t set_some_leds(struct plain_bench *b, uint8_t command, uint8_t named)
{
    static const uint32_t state[] = {0, 0x000001, 0x000100, 0x010000, 0x010100};
    b->leds = (b->leds & ~(named * UINT32_C(0x010101))) | named * state[command - 0xF5];
    return 0;
}

uint32_t plain_bench_new(struct plain_bench *b, uint32_t address, const uint8_t *cells, size_t count, uint8_t map_version,
                         uint8_t build_year, uint8_t build_week)
{
    if (count < PLAIN_BENCH_CELLS)
        return refuse(TOO_SHORT);
    if (address > 255)
        return refuse(TYPE_NOT_KNOWN);
    if (address == 0)
        return refuse_at(1);
    memcpy(b->cell, cells, PLAIN_BENCH_CELLS);
    b->leds = 0;
    b->address = (uint8_t)address;
    b->map_version = map_version;
    b->build_year = build_year;
    b->build_week = build_week;
    return 0;
}

/* What is no frame with data of a command's form: a type request, a frame to another address, or what is refused. */
static APART uint32_t take_other(const struct plain_bench *b, uint32_t identifier, uint32_t remote, const uint8_t *data, size_t count,
                           uint8_t *out, size_t out_len)
{
    uint32_t refused = refuse_frame(identifier, remote, count);
    if (refused || address_in(identifier) != b->address)
        return refused;
    if (!remote)
        return refuse_form(rules[data[0]].form, count);
    return priority_in(identifier) == LOW ? reply_type(b, identifier, out, out_len) : refuse(WRONG_PRIORITY);
}

uint32_t plain_bench_take(struct plain_bench *b, uint32_t identifier, uint32_t remote, const uint8_t *restrict d, size_t count,
                          uint8_t *restrict out, size_t out_len)
{
    if (!has_data(identifier, remote, count) || address_in(identifier) != b->address || rules[d[0]].form != FORM(count, priority_in(identifier)))
        return take_other(b, identifier, remote, d, count, out, out_len);
    switch (rules[d[0]].deed) {
    case NAME_ASKED:
        return reply_name(b, identifier, d[1], out, out_len);
    case STATUS_ASKED:
        return reply(out, out_len, identifier, 5, 0xEB | (uint64_t)b->leds << 16);
    case CELL_ASKED:
        return d[1] != 0 ? refuse_at(2) : reply(out, out_len, identifier, 4, 0xFE | (uint32_t)d[2] << 16 | (uint32_t)b->cell[d[2]] << 24);
    case BLOCK_ASKED:
        return reply_block(b, identifier, d, NULL, out, out_len);
    case ALL_ASKED:
        return reply_all(b, identifier, out, out_len);
    case CELL_SET:
        return store_cell(b, d);
    case BLOCK_SET:
        return reply_block(b, identifier, d, d + 3, out, out_len);
    case ERRORS_ASKED:
        return reply(out, out_len, identifier, 4, 0xDA);
    case LEDS_ALL:
        return set_leds(b, d[1], d[2], d[3]);
    default: /* LEDS */
        return set_some_leds(b, d[0], d[1]);
    }
}
