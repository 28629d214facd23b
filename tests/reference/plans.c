/* The plan of reads: by the request's words, with a mark for each cell that is read; and the least number by trying every read for each cell. */
#include "reference.h"

#include <string.h>

enum { BLOCK = 4, CELLS = 256 };

static void mark(char read[CELLS + BLOCK], unsigned start) { memset(read + start, 1, BLOCK); }

unsigned ref_plan(const struct ref_module *m, unsigned starts[64])
{
    char read[CELLS + BLOCK] = {0};
    unsigned cells = ref_cells(m->type), last = cells - BLOCK, count = 0;
    for (;;) {
        unsigned lowest = 0;
        while (lowest < cells && (m->cell[lowest] != REF_UNKNOWN || read[lowest]))
            lowest++;
        if (lowest == cells)
            return count;
        starts[count] = lowest < last ? lowest : last;
        mark(read, starts[count++]);
    }
}

/* from the last cell down: the fewest reads for the cells from `cell` on, where all below it are seen to */
unsigned ref_least_reads(const struct ref_module *m)
{
    unsigned cells = ref_cells(m->type), last = cells - BLOCK, fewest[CELLS + BLOCK] = {0};
    for (unsigned cell = cells; cell-- > 0;) {
        fewest[cell] = fewest[cell + 1];
        if (m->cell[cell] != REF_UNKNOWN)
            continue;
        unsigned best = cells;
        for (unsigned start = 0; start <= last; start++)
            if (start <= cell && cell < start + BLOCK && 1 + fewest[start + BLOCK] < best)
                best = 1 + fewest[start + BLOCK];
        fewest[cell] = best;
    }
    return fewest[0];
}

unsigned ref_right_plan(const struct ref_module *m, const unsigned *starts, size_t count)
{
    char read[CELLS + BLOCK] = {0};
    unsigned cells = ref_cells(m->type);
    for (size_t i = 0; i < count; i++) {
        if (starts[i] > cells - BLOCK)
            return 0;
        mark(read, starts[i]);
    }
    for (unsigned cell = 0; cell < cells; cell++)
        if (m->cell[cell] == REF_UNKNOWN && !read[cell])
            return 0;
    return count == ref_least_reads(m);
}
