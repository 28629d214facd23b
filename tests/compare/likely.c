/* Frames and bytes that are likely to matter: the tests' own table of frames. */
#include "subjects.h"

#include "velbus.h"

static const uint8_t edges[] = {0x00, 0x01, 0x02, 0x03, 0x04, 0x08, 0x09, 0x0A, 0x0C, 0x0F, 0x10, 0x20, 0x30, 0x33, 0x40,
                                0x7C, 0x7D, 0x7F, 0x80, 0xFC, 0xFD, 0xFE, 0xFF};

uint8_t edge(void) { return draw(4) ? edges[draw(sizeof edges)] : (uint8_t)draw(256); }

enum { LOW = 3 << 9, HIGH = 0 };

/* memory told is there twice: it is most of what a bus carries */
static const struct {
    uint8_t command, length;
    uint16_t priority;
} made[] = {
    {0x00, 4, HIGH}, {0xFE, 4, LOW}, {0xFE, 4, LOW}, {0xCC, 7, LOW}, {0xCC, 7, LOW}, {0xDA, 4, LOW}, {0xF0, 8, LOW}, {0xF1, 8, LOW},
    {0xF2, 6, LOW},  {0xEF, 2, LOW}, {0xFA, 2, LOW}, {0xFD, 3, LOW}, {0xC9, 3, LOW}, {0xCB, 1, LOW}, {0xFC, 4, LOW}, {0xCA, 7, LOW},
    {0xD9, 1, LOW},  {0xFF, 7, LOW}, {0xEB, 5, LOW}, {0xF4, 4, LOW}, {0xF5, 2, LOW}, {0xF6, 2, LOW}, {0xF7, 2, LOW}, {0xF8, 2, LOW},
    {0xF9, 2, LOW},  {0xFF, 5, LOW}, {0xEC, 8, LOW}, {0x04, 2, HIGH}, {0x05, 5, HIGH}, {0x06, 5, HIGH},
};

/* a blind: of either blind module, or of the VMB2BL alone */
static uint8_t likely_blind(void) { return draw(3) ? 0x03 : 0x0C; }

/* a channel of a VMB8IR, a blind or a button of a blind module */
static uint8_t likely_channel(void) { return (uint8_t)(draw(2) ? 1u << draw(draw(2) ? 2 : 8) : draw(2) ? likely_blind() : 0x10u << draw(draw(2) ? 2 : 4)); }

/* the time of a blind's command, often at or beside an edge */
static void likely_time(uint8_t *d)
{
    static const uint8_t ends[] = {0x00, 0x01, 0xFE, 0xFF};
    if (draw(2))
        return;
    d[0] = d[1] = draw(2) ? 0xFF : 0x00;
    d[2] = ends[draw(sizeof ends)];
}

static void likely_fields(struct ref_frame *f)
{
    uint8_t *d = f->data;
    switch (d[0]) {
    case 0xFF:
        d[1] = f->count == 7 ? VELBUS_VMB8IR : draw(2) ? VELBUS_VMB1BL : VELBUS_VMB2BL;
        d[2] &= f->count == 7 ? 0xFF : d[1] == VELBUS_VMB1BL ? 0x03 : 0x0F;
        break;
    case 0xFE: case 0xCC: case 0xFD: case 0xC9: case 0xFC: case 0xCA:
        d[1] = 0;
        d[2] &= draw(2) ? 0x3F : 0xFF;
        break;
    case 0xEF:
        d[1] = (uint8_t)(likely_channel() | (draw(2) ? likely_channel() : 0));
        break;
    case 0xF0: case 0xF1: case 0xF2:
        d[1] = likely_channel();
        if (d[0] == 0xF2 && draw(2))
            d[5] = 0xFF;
        break;
    case 0xEC:
        d[1] = likely_blind();
        d[2] &= 3;
        d[3] = (uint8_t)(draw(3) << (d[1] == 0x0C ? 2 : 0));
        d[4] = (uint8_t)(draw(2) ? 0 : 1u << draw(8));
        break;
    case 0x00:
        for (unsigned i = 1, clear = draw(2); clear && i < 4; i++)
            d[i] &= 0x33;
        break;
    case 0x05: case 0x06:
        likely_time(d + 2);
        d[1] = likely_blind();
        break;
    case 0x04: case 0xFA:
        d[1] = likely_blind();
        break;
    default:
        break;
    }
}

static void damage(struct ref_frame *f)
{
    switch (draw(5)) {
    case 0: f->count = draw(10); break;
    case 1: f->data[draw(8)] = (uint8_t)draw(256); break;
    case 2: f->identifier ^= 1u << draw(12); break;
    case 3: f->remote = draw(3); break;
    default: f->identifier = draw(5000); break;
    }
}

unsigned kinds(void) { return sizeof made / sizeof made[0]; }

struct ref_frame made_frame(unsigned kind, unsigned addresses)
{
    struct ref_frame f = {0};
    f.count = made[kind].length;
    f.identifier = made[kind].priority | draw(addresses) << 1;
    f.data[0] = made[kind].command;
    for (unsigned i = 1; i < f.count; i++)
        f.data[i] = (uint8_t)draw(256);
    likely_fields(&f);
    return f;
}

struct ref_frame likely_frame(unsigned addresses)
{
    struct ref_frame f = made_frame(draw(kinds()), addresses);
    if (draw(12) == 0)
        damage(&f);
    if (draw(30) == 0) {
        f.remote = 1;
        f.count = 0;
    }
    return f;
}
