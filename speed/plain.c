#include "plain.h"
#include "plain_bus.h"

#include <string.h>

_Static_assert(sizeof(struct plain_module) == 1024, "a slot is found by a shift");

/* ---- the tables ---- */

/* What a frame's bytes are tested for, and what they do: one number for both, so that one jump serves a frame. */
enum act {
    FREE, BUTTONS, CELL_TOLD, CELL_SET, BLOCK_TOLD, BLOCK_SET, LOCATION_ASKED, NAME_ONE, NAME_TWO, NAME_THREE, NAME_ASKED,
    STATUS_ASKED, INPUT_STATUS, LEDS_ALL, LEDS, BLIND_STATUS, BLIND_MOVED,
};

/* A command of a kind: the form of its frames, and the last memory location that may stand in them. */
struct rule {
    _Alignas(4) uint8_t form; /* aligned so that a rule is found by a shift */
    uint8_t act, last;
};

#define OF_EVERY(last_cell, last_start)                                                                                           \
    [0xFE] = {L(4), CELL_TOLD, last_cell}, [0xFD] = {L(3), LOCATION_ASKED, last_cell}, [0xFC] = {L(4), CELL_SET, last_cell},      \
    [0xCC] = {L(7), BLOCK_TOLD, last_start}, [0xC9] = {L(3), LOCATION_ASKED, last_start}, [0xCA] = {L(7), BLOCK_SET, last_start}, \
    [0xF0] = {L(8), NAME_ONE, 0}, [0xF1] = {L(8), NAME_TWO, 0}, [0xF2] = {L(6), NAME_THREE, 0}, [0xEF] = {L(2), NAME_ASKED, 0},   \
    [0xDA] = {L(4), FREE, 0}, [0xCB] = {L(1), FREE, 0}, [0xD9] = {L(1), FREE, 0}

#define OF_BLINDS                                                                                                                 \
    [0xFA] = {L(2), STATUS_ASKED, 0}, [0xEC] = {L(8), BLIND_STATUS, 0}, [0x04] = {H(2), BLIND_MOVED, 0},                          \
    [0x05] = {H(5), BLIND_MOVED, 0}, [0x06] = {H(5), BLIND_MOVED, 0}

static const struct rule rules[PLAIN_KINDS][256] = {
    [PLAIN_VMB8IR] = {OF_EVERY(0xFF, 0xFC), [0x00] = {H(4), FREE, 0}, [0xFA] = {L(2), FREE, 0}, [0xEB] = {L(5), INPUT_STATUS, 0},
                      [0xF4] = {L(4), LEDS_ALL, 0}, [0xF5] = {L(2), LEDS, 0}, [0xF6] = {L(2), LEDS, 0},
                      [0xF7] = {L(2), LEDS, 0}, [0xF8] = {L(2), LEDS, 0}, [0xF9] = {L(2), LEDS, 0}},
    [PLAIN_VMB1BL] = {OF_EVERY(0x7F, 0x7C), OF_BLINDS, [0x00] = {H(4), BUTTONS, 0}},
    [PLAIN_VMB2BL] = {OF_EVERY(0xFF, 0xFC), OF_BLINDS, [0x00] = {H(4), FREE, 0}},
};

/* The name that a channel byte stands for, from 1; 0 where it stands for none. */
static const uint8_t name_of[PLAIN_KINDS][256] = {
    [PLAIN_VMB8IR] = {[0x01] = 1, [0x02] = 2, [0x04] = 3, [0x08] = 4, [0x10] = 5, [0x20] = 6, [0x40] = 7, [0x80] = 8},
    [PLAIN_VMB1BL] = {[0x03] = 1, [0x10] = 2, [0x20] = 3},
    [PLAIN_VMB2BL] = {[0x03] = 1, [0x0C] = 2, [0x10] = 3, [0x20] = 4, [0x40] = 5, [0x80] = 6},
};

enum { NO_BUTTON_BITS = 0xCC, END_OF_BUTTON_NAME = 0xFF };

/* The blind that a byte stands for, from 1, on a module with blinds; 0 where it stands for none. */
static inline unsigned blind_of(unsigned kind, uint8_t channel)
{
    return channel == 0x03 ? 1 : channel == 0x0C && kind == PLAIN_VMB2BL ? 2 : 0;
}

/* Whether names may be asked for by a byte that is no channel: several of a blind module's together. */
static inline int names_together(unsigned kind, uint8_t byte)
{
    int whole = byte != 0 && (byte & 3) % 3 == 0 && (byte >> 2 & 3) % 3 == 0;
    return whole && (kind == PLAIN_VMB2BL || (kind == PLAIN_VMB1BL && (byte & NO_BUTTON_BITS) == 0));
}

static const uint16_t cells_of[PLAIN_KINDS] = {0, 256, 128, 256};
static const uint8_t names_of[PLAIN_KINDS] = {0, 8, 3, 6};
static const uint8_t type_of[PLAIN_KINDS] = {0x00, 0x0A, 0x03, 0x09};

/* The most that byte 3 of a type frame is: two bits of time-out for each blind; a VMB8IR's is free. */
static const uint8_t timeouts_of[PLAIN_KINDS] = {0, UINT8_MAX, 0x03, 0x0F};

/* ---- steps ---- */

static inline struct plain_step *next_step(struct plain_picture *p)
{
    size_t next = p->next;
    p->next = (uint8_t)((next + 1) % PLAIN_DEPTH);
    p->kept = (uint8_t)(p->kept + (p->kept < p->depth));
    return &p->step[next];
}

static inline uint32_t step_over_nothing(struct plain_picture *p)
{
    next_step(p)->start = PLAIN_NOTHING;
    return 0;
}

/* Keeps PLAIN_RUN bytes from `field` on. Steps are taken back latest first, so it does no harm that a frame changed fewer. */
static inline void keep(struct plain_picture *p, const void *field)
{
    struct plain_step *s = next_step(p);
    s->start = (uint32_t)((const uint8_t *)field - (const uint8_t *)p);
    memcpy(s->old, field, PLAIN_RUN);
}

uint32_t plain_step_back(struct plain_picture *p)
{
    if (p->kept == 0)
        return refuse(NOTHING_KEPT);
    p->kept--;
    p->next = (uint8_t)((p->next + PLAIN_DEPTH - 1) % PLAIN_DEPTH);
    const struct plain_step *s = &p->step[p->next];
    if (s->start > PLAIN_ENTERED)
        memcpy((uint8_t *)p + s->start, s->old, PLAIN_RUN);
    else if (s->start == PLAIN_ENTERED)
        p->slot[p->module[--p->modules].address] = PLAIN_MODULES;
    return 0;
}

/* ---- modules ---- */

uint32_t plain_fresh(struct plain_picture *p, uint32_t depth)
{
    if (depth > PLAIN_DEPTH)
        return refuse(NO_SUCH_PLACE);
    p->modules = p->kept = p->next = 0;
    p->depth = (uint8_t)depth;
    memset(p->slot, PLAIN_MODULES, sizeof p->slot);
    p->module[PLAIN_MODULES].kind = PLAIN_NO_MODULE;
    return 0;
}

static void blank(struct plain_module *m, unsigned kind, unsigned address)
{
    m->kind = (uint8_t)kind;
    m->address = (uint8_t)address;
    for (size_t i = 0; i < PLAIN_CELLS; i++)
        m->cell[i] = PLAIN_UNKNOWN;
    uint16_t *character = m->character[0];
    for (size_t i = 0; i < sizeof m->character / sizeof *character; i++)
        character[i] = PLAIN_UNKNOWN;
    m->leds = UINT64_MAX;
    m->blind[0] = m->blind[1] = UINT8_MAX;
}

/* FF: a module enters, is told again, or is exchanged. */
static uint32_t hear_type(struct plain_picture *p, unsigned address, unsigned priority, const uint8_t *data, size_t count)
{
    if (count < 2)
        return refuse(WRONG_LENGTH);
    unsigned kind = data[1] == 0x0A ? PLAIN_VMB8IR : data[1] == 0x03 ? PLAIN_VMB1BL : data[1] == 0x09 ? PLAIN_VMB2BL : PLAIN_NO_MODULE;
    if (kind == PLAIN_NO_MODULE)
        return refuse(BAD_TYPE);
    if (count != (kind == PLAIN_VMB8IR ? 7 : 5))
        return refuse(WRONG_LENGTH);
    if (priority != LOW)
        return refuse(WRONG_PRIORITY);
    if (data[2] > timeouts_of[kind])
        return refuse_at(3);
    struct plain_module *m = &p->module[p->slot[address]];
    if (m->kind == kind) {
        keep(p, m->build);
    } else if (m->kind != PLAIN_NO_MODULE) {
        p->kept = 0;
        blank(m, kind, address);
    } else {
        if (p->modules == PLAIN_MODULES)
            return refuse(NO_ROOM);
        next_step(p)->start = PLAIN_ENTERED;
        m = &p->module[p->modules];
        p->slot[address] = p->modules++;
        blank(m, kind, address);
    }
    memcpy(m->build, data + count - 2, 2);
    return 0;
}

/* ---- what frames tell ---- */

static inline uint32_t tell(struct plain_picture *p, uint16_t *restrict places, const uint8_t *restrict values, size_t n)
{
    keep(p, places);
    for (size_t i = 0; i < n; i++)
        places[i] = values[i];
    return 0;
}

static inline uint32_t ask(struct plain_picture *p, uint16_t *places, size_t n)
{
    keep(p, places);
    for (size_t i = 0; i < n; i++)
        places[i] = PLAIN_UNKNOWN;
    return 0;
}

/* The first character of a name; a VMB8IR's names live in its memory. */
static inline const uint16_t *name_at(const struct plain_module *m, size_t name)
{
    return m->kind == PLAIN_VMB8IR ? &m->cell[PLAIN_NAME_SIZE * (name - 1)] : m->character[name - 1];
}

static inline uint32_t tell_name(struct plain_picture *p, struct plain_module *m, const uint8_t *restrict data, size_t from, size_t n)
{
    unsigned name = name_of[m->kind][data[1]];
    if (name == 0)
        return refuse_at(2);
    return tell(p, (uint16_t *)name_at(m, name) + from, data + 2, n);
}

static const uint64_t EACH_BYTE = 0x0101010101010101;

/* Bit i of a byte as the byte i, 0 or 1. */
static inline uint64_t spread(uint8_t bits)
{
    uint64_t own = bits * EACH_BYTE & 0x8040201008040201;
    return (own + 0x7F * EACH_BYTE) >> 7 & EACH_BYTE;
}

/* All eight at once: 1 on, else 4 very fast where both others are, else 2 slow, 3 fast, 0 off. */
static inline uint32_t tell_leds(struct plain_picture *p, struct plain_module *m, uint8_t on, uint8_t slow, uint8_t fast)
{
    keep(p, &m->leds);
    uint64_t lit = spread(on), slowly = spread(slow) & ~lit, quickly = spread(fast) & ~lit;
    m->leds = lit + 2 * slowly + 3 * quickly - (slowly & quickly);
    return 0;
}

static inline uint32_t tell_some_leds(struct plain_picture *p, struct plain_module *m, uint8_t state, uint8_t named)
{
    keep(p, &m->leds);
    uint64_t mask = spread(named) * 0xFF;
    m->leds = (m->leds & ~mask) | (state * EACH_BYTE & mask);
    return 0;
}

static inline uint32_t tell_blind(struct plain_picture *p, struct plain_module *m, unsigned blind, uint8_t state)
{
    keep(p, &m->blind[blind - 1]);
    m->blind[blind - 1] = state;
    return 0;
}

static inline int at_most_one_bit(uint8_t b) { return (b & (b - 1)) == 0; }

/* A blind's status byte holds its state, 0 to 2, in two bits of the blind's own. */
static inline unsigned state_in(unsigned blind, uint8_t status) { return status >> (blind == 2 ? 2 : 0); }

static inline int state_allowed(unsigned blind, uint8_t status)
{
    return state_in(blind, status) <= 2 && (blind == 1 || (status & 3) == 0);
}

/* The number of the byte at fault, 0 where there is none. */
static inline unsigned blind_status_fault(unsigned blind, const uint8_t *d)
{
    return blind == 0 ? 2 : d[2] > 3 ? 3 : !state_allowed(blind, d[3]) ? 4 : at_most_one_bit(d[4]) ? 0 : 5;
}

static inline unsigned buttons_fault(const uint8_t *d)
{
    return d[1] & NO_BUTTON_BITS ? 2 : d[2] & NO_BUTTON_BITS ? 3 : 4;
}

static inline int end_of_name_allowed(const struct plain_module *m, const uint8_t *d)
{
    return m->kind == PLAIN_VMB8IR || blind_of(m->kind, d[1]) || d[5] == END_OF_BUTTON_NAME;
}

static inline int no_location(const uint8_t *d, const struct rule *rule) { return d[1] != 0 || d[2] > rule->last; }

static inline uint32_t refuse_location(const uint8_t *d) { return refuse_at(d[1] != 0 ? 2 : 3); }

/* A frame of the right form: its fields, and what it does. */
static inline uint32_t act_on(struct plain_picture *p, struct plain_module *m, const struct rule *rule, const uint8_t *restrict d)
{
    switch (rule->act) {
    case FREE:
        return step_over_nothing(p);
    case BUTTONS:
        return (d[1] | d[2] | d[3]) & NO_BUTTON_BITS ? refuse_at(buttons_fault(d)) : step_over_nothing(p);
    case CELL_TOLD:
        return no_location(d, rule) ? refuse_location(d) : tell(p, &m->cell[d[2]], d + 3, 1);
    case CELL_SET:
        return no_location(d, rule) ? refuse_location(d) : ask(p, &m->cell[d[2]], 1);
    case BLOCK_TOLD:
        return no_location(d, rule) ? refuse_location(d) : tell(p, &m->cell[d[2]], d + 3, 4);
    case BLOCK_SET:
        return no_location(d, rule) ? refuse_location(d) : ask(p, &m->cell[d[2]], 4);
    case LOCATION_ASKED:
        return no_location(d, rule) ? refuse_location(d) : step_over_nothing(p);
    case NAME_ONE:
        return tell_name(p, m, d, 0, 6);
    case NAME_TWO:
        return tell_name(p, m, d, 6, 6);
    case NAME_THREE:
        return end_of_name_allowed(m, d) || name_of[m->kind][d[1]] == 0 ? tell_name(p, m, d, 12, 4) : refuse_at(6);
    case NAME_ASKED:
        return name_of[m->kind][d[1]] == 0 && !names_together(m->kind, d[1]) ? refuse_at(2) : step_over_nothing(p);
    case STATUS_ASKED:
        return blind_of(m->kind, d[1]) ? step_over_nothing(p) : refuse_at(2);
    case INPUT_STATUS:
        return tell_leds(p, m, d[2], d[3], d[4]);
    case LEDS_ALL:
        return tell_leds(p, m, d[1], d[2], d[3]);
    case LEDS:
        return tell_some_leds(p, m, (uint8_t)(d[0] - 0xF5), d[1]);
    case BLIND_STATUS: {
        unsigned blind = blind_of(m->kind, d[1]), fault = blind_status_fault(blind, d);
        return fault ? refuse_at(fault) : tell_blind(p, m, blind, (uint8_t)state_in(blind, d[3]));
    }
    default: { /* BLIND_MOVED */
        unsigned blind = blind_of(m->kind, d[1]);
        return blind ? tell_blind(p, m, blind, UINT8_MAX) : refuse_at(2);
    }
    }
}

/* What is no frame with data: a type request, or what is refused. */
static APART uint32_t hear_request(struct plain_picture *p, uint32_t identifier, uint32_t remote, size_t count)
{
    uint32_t refused = refuse_frame(identifier, remote, count);
    if (refused)
        return refused;
    return priority_in(identifier) == LOW ? step_over_nothing(p) : refuse(WRONG_PRIORITY);
}

/* A frame with data that is not of its command's form: a type, or what is refused. */
static APART uint32_t hear_other(struct plain_picture *p, uint32_t identifier, unsigned kind, const uint8_t *data, size_t count)
{
    unsigned priority = priority_in(identifier);
    if (priority != HIGH && priority != LOW)
        return refuse(BAD_PRIORITY);
    if (data[0] == 0xFF)
        return hear_type(p, address_in(identifier), priority, data, count);
    return kind == PLAIN_NO_MODULE ? refuse(TYPE_NOT_KNOWN) : refuse_form(rules[kind][data[0]].form, count);
}

uint32_t plain_hear(struct plain_picture *p, uint32_t identifier, uint32_t remote, const uint8_t *restrict data, size_t count)
{
    if (!has_data(identifier, remote, count))
        return hear_request(p, identifier, remote, count);
    struct plain_module *m = &p->module[p->slot[address_in(identifier)]];
    const struct rule *rule = &rules[m->kind][data[0]];
    if (rule->form != FORM(count, priority_in(identifier)))
        return hear_other(p, identifier, m->kind, data, count);
    return act_on(p, m, rule, data);
}

/* ---- questions ---- */

static inline const struct plain_module *module_at(const struct plain_picture *p, uint32_t address)
{
    return &p->module[address > 255 ? PLAIN_MODULES : p->slot[address]];
}

uint32_t plain_cell(const struct plain_picture *p, uint32_t address, uint32_t location)
{
    const struct plain_module *m = module_at(p, address);
    if (m->kind == PLAIN_NO_MODULE)
        return refuse(TYPE_NOT_KNOWN);
    if (location >= cells_of[m->kind])
        return refuse(NO_SUCH_PLACE);
    return m->cell[location];
}

uint32_t plain_memory_row(const struct plain_picture *p, uint32_t address, uint8_t *out, size_t out_len)
{
    const struct plain_module *m = module_at(p, address);
    if (m->kind == PLAIN_NO_MODULE)
        return refuse(TYPE_NOT_KNOWN);
    size_t size = cells_of[m->kind] * sizeof m->cell[0];
    if (out_len < size)
        return refuse(TOO_SHORT);
    memcpy(out, m->cell, size);
    return 0;
}

static inline unsigned heard_of(const uint16_t *character)
{
    unsigned heard = 0;
    for (size_t i = 0; i < PLAIN_NAME_SIZE; i++)
        heard += character[i] != PLAIN_UNKNOWN;
    return heard;
}

uint32_t plain_name(const struct plain_picture *p, uint32_t address, uint32_t name, uint8_t *out, size_t out_len)
{
    const struct plain_module *m = module_at(p, address);
    if (m->kind == PLAIN_NO_MODULE)
        return refuse(TYPE_NOT_KNOWN);
    if (name - 1 >= names_of[m->kind])
        return refuse(NO_SUCH_PLACE);
    if (out_len < PLAIN_NAME_SIZE * sizeof(uint16_t))
        return refuse(TOO_SHORT);
    const uint16_t *character = name_at(m, name);
    memcpy(out, character, PLAIN_NAME_SIZE * sizeof *character);
    return heard_of(character);
}

/* Whether four cells from one on are known, looked at in one word. What is read past the last cell is the module's too. */
static inline int four_known(const struct plain_module *m, size_t cell)
{
    uint64_t four;
    memcpy(&four, (const uint8_t *)m + offsetof(struct plain_module, cell) + cell * sizeof m->cell[0], sizeof four);
    return (four & PLAIN_UNKNOWN * UINT64_C(0x0001000100010001)) == 0;
}

/* Every fourth cell at most starts a read, so that the starts are made in room of their own and copied where they fit. */
uint32_t plain_plan(const struct plain_picture *p, uint32_t address, uint8_t *out, size_t out_len)
{
    const struct plain_module *m = module_at(p, address);
    if (m->kind == PLAIN_NO_MODULE)
        return refuse(TYPE_NOT_KNOWN);
    uint16_t starts[PLAIN_CELLS / PLAIN_BLOCK];
    size_t cells = cells_of[m->kind], last = cells - PLAIN_BLOCK, count = 0;
    for (size_t cell = 0; cell < cells;) {
        if (m->cell[cell] != PLAIN_UNKNOWN) {
            cell += four_known(m, cell) ? PLAIN_BLOCK : 1;
            continue;
        }
        starts[count++] = (uint16_t)(cell < last ? cell : last);
        cell += PLAIN_BLOCK;
    }
    if (out_len / sizeof starts[0] < count)
        return refuse(TOO_SHORT);
    memcpy(out, starts, count * sizeof starts[0]);
    return (uint32_t)count;
}

unsigned plain_told_cells(const struct plain_module *m)
{
    unsigned told = 0;
    for (size_t i = 0; i < cells_of[m->kind]; i++)
        told += m->cell[i] != PLAIN_UNKNOWN;
    return told;
}

unsigned plain_whole_names(const struct plain_module *m)
{
    unsigned whole = 0;
    for (size_t n = 1; n <= names_of[m->kind]; n++)
        whole += heard_of(name_at(m, n)) == PLAIN_NAME_SIZE;
    return whole;
}

unsigned plain_type(const struct plain_module *m) { return type_of[m->kind]; }
