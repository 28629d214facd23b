/* The listing program in plain C: a recording on standard input, its listing on standard output, as ./listing does. */
#include "plain.h"

#include <stdio.h>
#include <string.h>
#include <unistd.h>

enum { CUT_OFF = 15, BAD_NUMBER = 16 };
enum { DEPTH = 16 }; /* of the way back, which the classroom program names */
enum { WINDOW = 1 << 16, LONGEST_RECORD = 5 + 2 + 1 + 8 };

struct tally {
    unsigned long long heard, refused;
    unsigned long long broken_at;
    unsigned refusal; /* 0 where the recording is whole */
};

/* Past the window's last byte a record is read as if it went on; what comes of that is then thrown away. */
static uint8_t window[WINDOW + LONGEST_RECORD];
static struct plain_picture picture;

struct record {
    uint32_t identifier, remote, count;
    const uint8_t *data;
    const uint8_t *next; /* the byte after the record, or after the byte at fault */
    int bad;
};

static inline struct record fault_at(const uint8_t *at) { return (struct record){.next = at + 1, .bad = 1}; }

/* One record. Its bytes are judged in order and the first fault decides, so a fault or an end inside the window is true whatever lies
 * past it. A number's last group is 0 only where it is the first one. */
static inline struct record read_record(const uint8_t *at)
{
    if (*at >= 0x80) { /* the gap, of which only the form matters: any five groups are in its range */
        const uint8_t *fifth = at + 4;
        do
            at++;
        while (*at >= 0x80 && at < fifth);
        if ((uint8_t)(*at - 1) > 126)
            return fault_at(at);
    }
    at++;
    uint32_t word = *at;
    if (word >= 0x80) { /* at most 4095: the second group is 1 to 31, and the last */
        at++;
        if ((uint8_t)(*at - 1) > 30)
            return fault_at(at);
        word = (word & 0x7F) | (uint32_t)*at << 7;
    }
    at++;
    uint32_t count = *at;
    if (count > 8)
        return fault_at(at);
    at++;
    return (struct record){.identifier = word >> 1, .remote = word & 1, .count = count, .data = at, .next = at + count};
}

/* Hears the records that lie whole in the window's first n bytes, up to a fault; answers how many bytes they took. */
static size_t hear_window(struct tally *t, size_t n)
{
    const uint8_t *at = window, *end = window + n;
    unsigned long long heard = 0, refused = 0;
    while (at < end) {
        struct record r = read_record(at);
        if (r.next > end)
            break;
        if (r.bad) {
            t->refusal = BAD_NUMBER;
            at = r.next - 1;
            break;
        }
        if (plain_hear(&picture, r.identifier, r.remote, r.data, r.count) == 0)
            heard++;
        else
            refused++;
        at = r.next;
    }
    t->heard += heard;
    t->refused += refused;
    return (size_t)(at - window);
}

/* Hears the input to its end or to a fault; answers 0 where it could not be read. */
static int hear_input(struct tally *t)
{
    size_t left = 0;
    for (;;) {
        ssize_t got = read(STDIN_FILENO, window + left, WINDOW - left);
        if (got < 0)
            return 0;
        if (got == 0)
            break;
        left += (size_t)got;
        size_t used = hear_window(t, left);
        t->broken_at += used;
        if (t->refusal)
            return 1;
        left -= used;
        memmove(window, window + used, left);
    }
    if (left > 0) {
        t->refusal = CUT_OFF;
        t->broken_at += left;
    }
    return 1;
}

static void print_listing(const struct tally *t)
{
    puts("address type names cells");
    for (unsigned address = 0; address < 256; address++) {
        if (picture.slot[address] == PLAIN_MODULES)
            continue;
        struct plain_module *m = &picture.module[picture.slot[address]];
        printf("%02X %02X %u %u\n", address, plain_type(m), plain_whole_names(m), plain_told_cells(m));
    }
    if (t->refusal)
        printf("broken at byte %llu refusal %u\n", t->broken_at, t->refusal);
    printf("heard %llu refused %llu\n", t->heard, t->refused);
}

int main(void)
{
    struct tally t = {0};
    plain_fresh(&picture, DEPTH);
    if (!hear_input(&t)) {
        fputs("listing: the recording could not be read to its end\n", stderr);
        return 0;
    }
    print_listing(&t);
    if (fflush(stdout) != 0)
        fputs("listing: the listing could not be written\n", stderr);
    return 0;
}
