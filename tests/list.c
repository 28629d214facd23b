/* The listing of a recording by the second implementation: what the proved program is compared with. Standard input to standard output. */
#include "reference.h"

#include <stdio.h>
#include <stdlib.h>

enum { DEPTH = 16 }; /* of the way back, which the listing program names */

static struct ref_picture picture;
static uint8_t *input;
static size_t length, at;

static unsigned long long fault_at;
static unsigned fault;

static void broken(unsigned refusal, size_t offset)
{
    fault = refusal;
    fault_at = offset;
}

/* A number of at most `groups` groups and at most `most`; the byte at which a fault is certain. */
static uint64_t number(unsigned groups, uint64_t most)
{
    uint64_t value = 0;
    for (unsigned g = 0; g < groups; g++) {
        if (at == length) {
            broken(15, length);
            return 0;
        }
        uint8_t byte = input[at];
        uint64_t group = byte & 0x7F, so_far = value | group << 7 * g;
        int more = byte >> 7;
        uint64_t least = so_far + (more ? (uint64_t)1 << 7 * (g + 1) : 0);
        if (least > most || (more && g + 1 == groups) || (byte == 0 && g > 0)) {
            broken(16, at);
            return 0;
        }
        at++;
        value = so_far;
        if (!more)
            return value;
    }
    return value;
}

/* One record into f; 0 at the end or at a fault. */
static int record(struct ref_frame *f)
{
    if (at == length)
        return 0;
    number(5, 34359738367);
    if (fault)
        return 0;
    uint64_t word = number(2, 4095);
    if (fault)
        return 0;
    f->count = (size_t)number(1, 8);
    if (fault)
        return 0;
    if (length - at < f->count) {
        broken(15, length);
        return 0;
    }
    f->identifier = (uint32_t)(word / 2);
    f->remote = (uint32_t)(word % 2);
    for (size_t i = 0; i < f->count; i++)
        f->data[i] = input[at++];
    return 1;
}

static void print_module(const struct ref_module *m)
{
    unsigned names = 0, cells = 0;
    for (unsigned n = 0; n < ref_names(m->type); n++) {
        unsigned heard = 0;
        for (unsigned i = 0; i < 16; i++)
            heard += m->character[n][i] != REF_UNKNOWN;
        names += heard == 16;
    }
    for (unsigned i = 0; i < ref_cells(m->type); i++)
        cells += m->cell[i] != REF_UNKNOWN;
    printf("%02X %02X %u %u\n", m->address, m->type, names, cells);
}

int main(void)
{
    size_t room = 1 << 20;
    input = malloc(room);
    for (size_t n; input && (n = fread(input + length, 1, room - length, stdin)) > 0;)
        if ((length += n) == room)
            input = realloc(input, room *= 2);
    if (!input || ferror(stdin)) {
        perror("input");
        return 1;
    }
    unsigned long long heard = 0, refused = 0;
    struct ref_frame f = {0};
    ref_fresh(&picture, DEPTH);
    while (record(&f))
        if (ref_hear(&picture, &f))
            refused++;
        else
            heard++;
    printf("address type names cells\n");
    for (uint32_t address = 0; address < 256; address++) {
        const struct ref_module *m = ref_module_at(&picture, address);
        if (m)
            print_module(m);
    }
    if (fault)
        printf("broken at byte %llu refusal %u\n", fault_at, fault);
    printf("heard %llu refused %llu\n", heard, refused);
    return 0;
}
