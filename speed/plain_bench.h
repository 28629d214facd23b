/* A bench as velbus.h has it, a VMB8IR to teach on, in plain C. */
#ifndef PLAIN_BENCH_H
#define PLAIN_BENCH_H

#include <stddef.h>
#include <stdint.h>

enum { PLAIN_BENCH_CELLS = 256 };

struct plain_bench {
    uint8_t cell[PLAIN_BENCH_CELLS];
    uint32_t leds; /* as a status frame tells them: a byte for on, then slow, then fast, a bit for each LED; very fast is both of these */
    uint8_t address, map_version, build_year, build_week;
};

uint32_t plain_bench_new(struct plain_bench *b, uint32_t address, const uint8_t *cells, size_t count, uint8_t map_version,
                         uint8_t build_year, uint8_t build_week);
uint32_t plain_bench_take(struct plain_bench *b, uint32_t identifier, uint32_t remote, const uint8_t *restrict data, size_t count,
                          uint8_t *restrict out, size_t out_len);

#endif
