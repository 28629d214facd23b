/* Calls one function of the library over and over, so that its cost is told by how the whole grows with the number of calls.
 *
 *     calls MODE N RECORDING [DEPTH]
 *
 * First every frame of the recording is heard, in a picture whose way back has that depth (64 where none is named), and a bench is made at the first
 * frame's address; then N turns are made over the frames, in order and from the start again:
 *     none   the turn alone, to be taken off the others
 *     hear   the frame is heard
 *     back   the frame is heard, and a step back taken
 *     cell   a cell of the frame's address is asked
 *     name   a name of the frame's address is asked, the eight in turn
 *     row    the memory row of the frame's address is asked
 *     plan   the plan of reads for the frame's address is asked
 *     bench  the bench is handed the frame
 *     check  as hear; then every name, memory row and plan is asked, and asked again after each step back that is granted
 *     lesson as bench, with buffers of several lengths, and every byte of the buffer counts
 * Prints a sum over every answer: both sides must print the same. */
#include "side.h"

#include <stdio.h>
#include <stdlib.h>
#include <string.h>

enum { MOST_FRAMES = 1 << 20, ROW_SIZE = 512, DEPTH = 64, CELLS = 256, NAME_SIZE = 32, REPLIES_SIZE = 768 };

struct frame {
    uint32_t identifier, remote, count;
    uint8_t data[8];
};

static struct frame frames[MOST_FRAMES];
static size_t frame_count;
static uint8_t row[ROW_SIZE], replies[REPLIES_SIZE];
static uint32_t sum = 2166136261u; /* not 0, which answers of 0 would leave as it is */

static void add(uint32_t answer) { sum = (sum ^ answer ^ answer >> 16) * 16777619u; }

static uint32_t number(FILE *f)
{
    uint32_t value = 0;
    int byte = 0x80;
    for (int shift = 0; byte >= 0x80; shift += 7) {
        byte = getc(f);
        if (byte == EOF)
            return UINT32_MAX;
        value |= (uint32_t)(byte & 0x7F) << shift;
    }
    return value;
}

/* The frames of a recording without faults. */
static void read_frames(const char *path)
{
    FILE *f = fopen(path, "rb");
    if (!f) {
        perror(path);
        exit(1);
    }
    while (frame_count < MOST_FRAMES && number(f) != UINT32_MAX) {
        struct frame *x = &frames[frame_count++];
        uint32_t word = number(f);
        x->identifier = word >> 1;
        x->remote = word & 1;
        x->count = number(f);
        if (x->count > sizeof x->data || fread(x->data, 1, x->count, f) != x->count) {
            fprintf(stderr, "%s: a broken recording\n", path);
            exit(1);
        }
    }
    fclose(f);
}

static uint32_t address_of(const struct frame *x) { return x->identifier >> 1 & 0xFF; }

static void add_bytes(const uint8_t *bytes, size_t n)
{
    for (size_t i = 0; i < n; i++)
        add(bytes[i]);
}

/* A bench whose cells differ, at an address; before it those that are refused. */
static void make_bench(uint32_t address)
{
    uint8_t cells[CELLS];
    for (size_t i = 0; i < sizeof cells; i++)
        cells[i] = (uint8_t)(7 * i + 3);
    add(BENCH_NEW(address, cells, sizeof cells - 1));
    add(BENCH_NEW(256, cells, sizeof cells));
    add(BENCH_NEW(0, cells, sizeof cells));
    add(BENCH_NEW(address, cells, sizeof cells));
}

/* A frame for the bench, with a buffer that now and then is too short. */
static uint32_t lesson(const struct frame *x, size_t turn)
{
    static const size_t rooms[] = {sizeof replies, 36, 12, sizeof replies - 1, 35, 11, 0};
    uint32_t answer = BENCH_TAKE(x->identifier, x->remote, x->data, x->count, replies, rooms[turn % 7]);
    add_bytes(replies, sizeof replies);
    return answer;
}

#define TURNS(call)                                        \
    for (size_t i = 0, k = 0; i < turns; i++) {            \
        const struct frame *x = &frames[k];                \
        add(call);                                         \
        k = k + 1 == frame_count ? 0 : k + 1;              \
    }

static int make_turns(const char *mode, size_t turns)
{
    if (strcmp(mode, "none") == 0)
        TURNS(x->identifier)
    else if (strcmp(mode, "hear") == 0 || strcmp(mode, "check") == 0)
        TURNS(HEAR(x->identifier, x->remote, x->data, x->count))
    else if (strcmp(mode, "back") == 0)
        TURNS((add(HEAR(x->identifier, x->remote, x->data, x->count)), STEP_BACK()))
    else if (strcmp(mode, "cell") == 0)
        TURNS(CELL(address_of(x), x->data[2]))
    else if (strcmp(mode, "name") == 0)
        TURNS(NAME(address_of(x), (uint32_t)(1 + i % 8), row, sizeof row))
    else if (strcmp(mode, "row") == 0)
        TURNS(MEMORY_ROW(address_of(x), row, sizeof row))
    else if (strcmp(mode, "plan") == 0)
        TURNS(PLAN(address_of(x), row, sizeof row))
    else if (strcmp(mode, "bench") == 0)
        TURNS(BENCH_TAKE(x->identifier, x->remote, x->data, x->count, replies, sizeof replies))
    else if (strcmp(mode, "lesson") == 0)
        TURNS(lesson(x, i))
    else
        return 0;
    return 1;
}

/* What is asked of an address: its row, its plan, and each name, also one that there is none of, and into too short a buffer. */
static void add_address(uint32_t address)
{
    memset(row, 0, sizeof row);
    add(MEMORY_ROW(address, row, sizeof row));
    add_bytes(row, sizeof row);
    add(PLAN(address, row, sizeof row));
    add_bytes(row, sizeof row);
    for (uint32_t name = 0; name < 10; name++) {
        add(NAME(address, name, row, NAME_SIZE - 1));
        add(NAME(address, name, row, NAME_SIZE));
        add_bytes(row, NAME_SIZE);
    }
}

/* What the picture holds, and what each step back uncovers. */
static void add_picture(void)
{
    do
        for (uint32_t address = 0; address < 257; address++)
            add_address(address);
    while (STEP_BACK() == 0);
}

int main(int count, char **words)
{
    if (count != 4 && count != 5) {
        fprintf(stderr, "usage: calls none|hear|back|cell|name|row|plan|bench|check|lesson N RECORDING [DEPTH]\n");
        return 1;
    }
    read_frames(words[3]);
    if (frame_count == 0)
        return 1;
    add(FRESH(DEPTH + 1));
    add(FRESH(count == 5 ? (uint32_t)strtoul(words[4], NULL, 10) : DEPTH));
    make_bench(address_of(&frames[0]));
    for (size_t i = 0; i < frame_count; i++)
        add(HEAR(frames[i].identifier, frames[i].remote, frames[i].data, frames[i].count));
    if (!make_turns(words[1], strtoul(words[2], NULL, 10)))
        return 1;
    if (strcmp(words[1], "check") == 0)
        add_picture();
    printf("%08x\n", (unsigned)sum);
    return 0;
}
