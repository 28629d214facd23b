#include "kit.h"

#include <stdio.h>
#include <stdlib.h>
#include <string.h>
#include <sys/mman.h>
#include <unistd.h>

/* ---- random numbers ---- */

static uint64_t state;

void seed(uint64_t with) { state = with; }

static uint64_t next(void)
{
    state = state * 6364136223846793005u + 1442695040888963407u;
    return state ^ state >> 32;
}

uint32_t draw(uint32_t below) { return below ? (uint32_t)next() % below : 0; }

/* ---- buffers ---- */

enum { MARK = 0xA5, MARKS = 64 };

struct buffer make_buffer(size_t room)
{
    size_t page = (size_t)sysconf(_SC_PAGESIZE);
    size_t whole = (room + MARKS + page - 1) / page * page;
    uint8_t *p = mmap(NULL, whole + page, PROT_READ | PROT_WRITE, MAP_PRIVATE | MAP_ANONYMOUS, -1, 0);
    if (p == MAP_FAILED || mprotect(p + whole, page, PROT_NONE)) {
        perror("guard page");
        exit(2);
    }
    return (struct buffer){p + whole - room, room, p + whole};
}

static void place(struct buffer *b, size_t length)
{
    b->length = length;
    b->start = b->page - length;
    memset(b->start - MARKS, MARK, MARKS);
}

void set_length(struct buffer *b, size_t length)
{
    place(b, length);
    uint64_t eight = next();
    size_t rest = length % sizeof eight;
    memcpy(b->start, &eight, rest);
    for (uint8_t *p = b->start + rest; p != b->page; p += sizeof eight) {
        eight = next();
        memcpy(p, &eight, sizeof eight);
    }
}

void set_bytes(struct buffer *b, const uint8_t *bytes, size_t length)
{
    place(b, length);
    memcpy(b->start, bytes, length);
}

int marks_stand(const struct buffer *b)
{
    for (size_t i = 1; i <= MARKS; i++)
        if (b->start[-(ptrdiff_t)i] != MARK)
            return 0;
    return 1;
}

/* ---- comparing ---- */

static unsigned long long compared;
static struct ref_frame asked;

unsigned long long comparisons(void) { return compared; }

void about(const struct ref_frame *f) { asked = *f; }

static void print_bytes(const char *what, const uint8_t *bytes, size_t n)
{
    printf("%s", what);
    for (size_t i = 0; i < n; i++)
        printf(" %02X", bytes[i]);
    printf("\n");
}

_Noreturn static void end(void)
{
    printf("the last frame: identifier %u remote %u", (unsigned)asked.identifier, (unsigned)asked.remote);
    print_bytes(" data", asked.data, asked.count);
    fflush(stdout); /* a fuzzer does not let exit do it */
    exit(1);
}

void same(const char *what, unsigned long long library, unsigned long long reference)
{
    compared++;
    if (library == reference)
        return;
    printf("DIFFERENT: %s: library %llu, reference %llu\n", what, library, reference);
    end();
}

void same_bytes(const char *what, const uint8_t *library, const uint8_t *reference, size_t n)
{
    compared++;
    if (memcmp(library, reference, n) == 0)
        return;
    printf("DIFFERENT: %s\n", what);
    print_bytes("library  ", library, n);
    print_bytes("reference", reference, n);
    end();
}
