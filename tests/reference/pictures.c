/* The picture, worked out from the standing frames. */
#include "reference.h"

#include <string.h>

enum { IR = REF_VMB8IR, BL = REF_VMB1BL, UNKNOWN = REF_UNKNOWN };

unsigned ref_cells(unsigned type) { return type == BL ? 128 : 256; }
unsigned ref_names(unsigned type) { return type == IR ? 8 : type == BL ? 3 : 6; }
unsigned ref_leds(unsigned type) { return type == IR ? 8 : 0; }
unsigned ref_blinds(unsigned type) { return type == IR ? 0 : type == BL ? 1 : 2; }

static struct ref_module *module_at(struct ref_modules *all, uint32_t address)
{
    for (size_t i = 0; i < all->count; i++)
        if (all->module[i].address == address)
            return &all->module[i];
    return NULL;
}

struct ref_module *ref_module_at(struct ref_picture *p, uint32_t address) { return module_at(&p->now, address); }

/* ---- what an accepted frame does ---- */

static void blank(struct ref_module *m, unsigned address, unsigned type)
{
    m->address = address;
    m->type = type;
    m->year = m->week = m->blind[0] = m->blind[1] = UNKNOWN;
    for (int i = 0; i < 256; i++)
        m->cell[i] = UNKNOWN;
    for (int n = 0; n < 8; n++) {
        m->led[n] = UNKNOWN;
        for (int i = 0; i < 16; i++)
            m->character[n][i] = UNKNOWN;
    }
}

static void all_leds(struct ref_module *m, unsigned on, unsigned slow, unsigned fast)
{
    for (int i = 0; i < 8; i++) {
        int s = slow >> i & 1, f = fast >> i & 1;
        m->led[i] = on >> i & 1 ? 1 : s && f ? 4 : s ? 2 : f ? 3 : 0;
    }
}

static void some_leds(struct ref_module *m, unsigned named, int state)
{
    for (int i = 0; i < 8; i++)
        if (named >> i & 1)
            m->led[i] = state;
}

/* A VMB8IR's names live in its memory: character i of channel c, both from 1, is cell 16 * (c - 1) + i - 1. Both are kept here, each told with the other. */
static void name_part(struct ref_module *m, const uint8_t *d, int from, int count)
{
    unsigned name = ref_name_of(m->type, d[1]);
    for (int i = 0; i < count; i++) {
        m->character[name - 1][from + i] = d[2 + i];
        if (m->type == IR)
            m->cell[16 * (name - 1) + (unsigned)(from + i)] = d[2 + i];
    }
}

static void set_cell(struct ref_module *m, unsigned location, int value)
{
    m->cell[location] = value;
    if (m->type == IR && location < 8 * 16)
        m->character[location / 16][location % 16] = value;
}

/* 0 off, 1 up, 2 down, or unknown, of the blind that the frame names; in its status blind 2 goes up at 4 and down at 8 */
static void tell_blind(struct ref_module *m, const uint8_t *d)
{
    unsigned blind = ref_blind_of(m->type, d[1]);
    m->blind[blind - 1] = d[0] != 0xEC ? UNKNOWN : blind == 1 ? d[3] : d[3] / 4;
}

static int is_entry(const struct ref_frame *f) { return !f->remote && f->data[0] == 0xFF; }

static unsigned address_of(const struct ref_frame *f) { return f->identifier >> 1 & 0xFF; }

/* an entry: a module that is not there, one of another type, or the same again, of which only the build changes */
static void enter(struct ref_modules *all, const struct ref_frame *f)
{
    const uint8_t *d = f->data;
    struct ref_module *m = module_at(all, address_of(f));
    int other = !m || m->type != d[1];
    if (!m)
        m = &all->module[all->count++];
    if (other)
        blank(m, address_of(f), d[1]);
    m->year = d[1] == IR ? d[5] : d[3];
    m->week = d[1] == IR ? d[6] : d[4];
}

static void apply(struct ref_modules *all, const struct ref_frame *f)
{
    struct ref_module *m = module_at(all, address_of(f));
    const uint8_t *d = f->data;
    if (f->remote)
        return;
    switch (d[0]) {
    case 0xFF: enter(all, f); break;
    case 0xFE: set_cell(m, d[2], d[3]); break;
    case 0xFC: set_cell(m, d[2], UNKNOWN); break;
    case 0xCC: for (unsigned i = 0; i < 4; i++) set_cell(m, d[2] + i, d[3 + i]); break;
    case 0xCA: for (unsigned i = 0; i < 4; i++) set_cell(m, d[2] + i, UNKNOWN); break;
    case 0xF0: name_part(m, d, 0, 6); break;
    case 0xF1: name_part(m, d, 6, 6); break;
    case 0xF2: name_part(m, d, 12, 4); break;
    case 0xF4: all_leds(m, d[1], d[2], d[3]); break;
    case 0xEB: all_leds(m, d[2], d[3], d[4]); break;
    case 0xF5: case 0xF6: case 0xF7: case 0xF8: case 0xF9: some_leds(m, d[1], d[0] - 0xF5); break;
    case 0xEC: case 0x04: case 0x05: case 0x06: tell_blind(m, d); break;
    default: break;
    }
}

/* ---- hearing and stepping back ---- */

static void work_out(struct ref_picture *p)
{
    p->now = p->settled;
    for (size_t i = 0; i < p->frames; i++)
        apply(&p->now, &p->standing[i]);
}

/* the oldest standing frame is struck off no more: it leaves the list, and what it did stays */
static void settle_oldest(struct ref_picture *p)
{
    apply(&p->settled, &p->standing[0]);
    memmove(&p->standing[0], &p->standing[1], --p->frames * sizeof p->standing[0]);
}

unsigned ref_fresh(struct ref_picture *p, uint32_t depth)
{
    if (depth > REF_DEPTH)
        return 12;
    p->settled.count = 0;
    p->frames = 0;
    p->depth = depth;
    p->kept = 0;
    work_out(p);
    return 0;
}

/* only FF is accepted at an address that is not listed, so that apply finds its module */
static unsigned hear_refusal(struct ref_picture *p, const struct ref_frame *f)
{
    const struct ref_module *m = ref_module_at(p, address_of(f));
    uint8_t message[20];
    unsigned n = ref_read(m ? m->type : 0, f, message);
    if (n)
        return n;
    return is_entry(f) && !m && p->now.count == REF_MODULES ? 10 : 0;
}

unsigned ref_hear(struct ref_picture *p, const struct ref_frame *f)
{
    unsigned n = hear_refusal(p, f);
    if (n)
        return n;
    const struct ref_module *m = ref_module_at(p, address_of(f));
    if (is_entry(f) && m && m->type != f->data[1])
        p->kept = 0;
    else if (p->kept < p->depth)
        p->kept++;
    if (p->frames == REF_STANDING)
        settle_oldest(p);
    p->standing[p->frames++] = *f;
    work_out(p);
    return 0;
}

unsigned ref_step_back(struct ref_picture *p)
{
    if (p->kept == 0)
        return 11;
    p->kept--;
    p->frames--;
    work_out(p);
    return 0;
}
