/* Frames judged, read as messages, and written. */
#include "reference.h"

#include <string.h>

enum { NONE = 0x00, BL = REF_VMB1BL, BL2 = REF_VMB2BL, IR = REF_VMB8IR };

/* ---- the frames, as the papers list them ---- */

struct line {
    const char *types; /* I VMB8IR, 1 VMB1BL, 2 VMB2BL, B both of these */
    unsigned what;     /* the message's number */
    unsigned command;
    char priority;    /* h high, l low */
    const char *made; /* the bytes after the command: t the type, c a channel, l a location (2), m LEDs, T a time (3), . a free byte */
};

static const struct line lines[] = {
    {"I", 1, 0xFF, 'l', "t....."},   {"1", 2, 0xFF, 'l', "t..."},     {"IB", 3, 0x00, 'h', "..."},      {"IB", 4, 0xFE, 'l', "l."},
    {"IB", 5, 0xCC, 'l', "l...."},   {"IB", 6, 0xFD, 'l', "l"},       {"IB", 7, 0xC9, 'l', "l"},        {"IB", 8, 0xCB, 'l', ""},
    {"IB", 9, 0xFC, 'l', "l."},      {"IB", 10, 0xCA, 'l', "l...."},  {"IB", 11, 0xDA, 'l', "..."},     {"IB", 12, 0xD9, 'l', ""},
    {"IB", 13, 0xF0, 'l', "c......"}, {"IB", 14, 0xF1, 'l', "c......"}, {"IB", 15, 0xF2, 'l', "c...."}, {"IB", 16, 0xEF, 'l', "c"},
    {"IB", 17, 0xFA, 'l', "c"},      {"I", 18, 0xEB, 'l', "...."},    {"I", 19, 0xF4, 'l', "..."},      {"I", 20, 0xF5, 'l', "m"},
    {"I", 20, 0xF6, 'l', "m"},       {"I", 20, 0xF7, 'l', "m"},       {"I", 20, 0xF8, 'l', "m"},        {"I", 20, 0xF9, 'l', "m"},
    {"B", 21, 0xEC, 'l', "c......"}, {"B", 22, 0x04, 'h', "c"},       {"B", 23, 0x05, 'h', "cT"},       {"B", 24, 0x06, 'h', "cT"},
    {"2", 25, 0xFF, 'l', "t..."},
};

enum { LINES = sizeof lines / sizeof lines[0] };

static int has(unsigned type, const struct line *line) { return strpbrk(line->types, type == IR ? "I" : type == BL ? "B1" : "B2") != NULL; }

static const struct line *line_of(unsigned type, unsigned command)
{
    for (size_t i = 0; i < LINES; i++)
        if (lines[i].command == command && has(type, &lines[i]))
            return &lines[i];
    return NULL;
}

static unsigned length_of(const struct line *line)
{
    unsigned n = 1;
    for (const char *p = line->made; *p; p++)
        n += *p == 'T' ? 3 : *p == 'l' ? 2 : 1;
    return n;
}

static unsigned priority_of(const struct line *line) { return line->priority == 'h' ? 0 : 3; }

static unsigned ones(unsigned byte)
{
    unsigned n = 0;
    for (; byte; byte >>= 1)
        n += byte & 1;
    return n;
}

/* the identifiers of a type's names, in the order of the names, with a 0 after the last: a blind is its two bits, a button its own */
static const uint8_t *identifiers(unsigned type)
{
    static const uint8_t ir[] = {0x01, 0x02, 0x04, 0x08, 0x10, 0x20, 0x40, 0x80, 0}, bl[] = {0x03, 0x10, 0x20, 0},
                         bl2[] = {0x03, 0x0C, 0x10, 0x20, 0x40, 0x80, 0};
    return type == IR ? ir : type == BL ? bl : bl2;
}

unsigned ref_name_of(unsigned type, unsigned channel)
{
    const uint8_t *all = identifiers(type);
    for (unsigned i = 0; all[i]; i++)
        if (all[i] == channel)
            return i + 1;
    return 0;
}

unsigned ref_blind_of(unsigned type, unsigned channel) { return channel == 0x03 ? 1 : channel == 0x0C && type == BL2 ? 2 : 0; }

/* Names asked for: of a blind module several together, where nothing is left once each identifier that the byte holds is taken out. */
static int names_asked(unsigned type, unsigned byte)
{
    if (type == IR)
        return ref_name_of(type, byte) != 0;
    unsigned left = byte;
    for (const uint8_t *one = identifiers(type); *one; one++)
        if ((byte & *one) == *one)
            left &= ~(unsigned)*one;
    return byte != 0 && left == 0;
}

/* ---- refusals ---- */

/* a blind's status: off, or its own up or down bit */
static int state_allowed(unsigned blind, unsigned state)
{
    return state == 0 || (blind == 1 ? state == 0x01 || state == 0x02 : state == 0x04 || state == 0x08);
}

/* whether the fields of a frame of the right length are allowed; d[1] is data byte 1 */
static int fields_allowed(unsigned type, const uint8_t *d)
{
    switch (d[1]) {
    case 0xFE: case 0xFD: case 0xFC:
        return d[2] == 0 && (type != BL || d[3] <= 0x7F);
    case 0xCC: case 0xC9: case 0xCA:
        return d[2] == 0 && d[3] <= (type == BL ? 0x7C : 0xFC);
    case 0xF0: case 0xF1:
        return ref_name_of(type, d[2]) != 0;
    case 0xEF:
        return names_asked(type, d[2]);
    case 0xF2:
        return ref_name_of(type, d[2]) != 0 && (type == IR || ref_blind_of(type, d[2]) != 0 || d[6] == 0xFF);
    default:
        break;
    }
    if (type == IR)
        return 1;
    switch (d[1]) {
    case 0x04: case 0x05: case 0x06: case 0xFA:
        return ref_blind_of(type, d[2]) != 0;
    case 0xEC:
        return ref_blind_of(type, d[2]) != 0 && d[3] <= 3 && state_allowed(ref_blind_of(type, d[2]), d[4]) && ones(d[5]) <= 1;
    case 0xFF:
        return d[3] <= (type == BL ? 0x03 : 0x0F);
    case 0x00:
        return type == BL2 || !((d[2] | d[3] | d[4]) & 0xCC);
    default:
        return 1;
    }
}

/* whether some bytes behind byte k make the fields allowed; whatever a byte is bound to, all zeros or all ones will do for it */
static int can_be_mended(unsigned type, const uint8_t *data, size_t count, size_t k)
{
    for (unsigned later = 0x00; later <= 0xFF; later += 0xFF) {
        uint8_t d[9] = {0};
        memcpy(d + 1, data, count);
        for (size_t i = k + 1; i <= count; i++)
            d[i] = (uint8_t)later;
        if (fields_allowed(type, d))
            return 1;
    }
    return 0;
}

/* 9 with the first byte behind the command that no later bytes can mend; 0 where the fields are allowed */
static unsigned field_refusal(unsigned type, const uint8_t *data, size_t count)
{
    for (size_t k = 2; k <= count; k++)
        if (!can_be_mended(type, data, count, k))
            return REF_AT(9, k);
    return 0;
}

/* The refusals that concern a frame of a type: 6, 7, 8, 9. */
static unsigned judged(unsigned type, const struct ref_frame *f)
{
    const struct line *line = line_of(type, f->data[0]);
    if (!line)
        return 6;
    if (length_of(line) != f->count)
        return 7;
    if (priority_of(line) != f->identifier >> 9)
        return 8;
    return field_refusal(type, f->data, f->count);
}

static int is_type(uint32_t type) { return type == IR || type == BL || type == BL2; }

/* FF goes by the type inside it */
static unsigned type_for(uint32_t type, const struct ref_frame *f) { return f->data[0] == 0xFF ? f->data[1] : type; }

static unsigned refusal(uint32_t type, const struct ref_frame *f)
{
    if (type != NONE && !is_type(type))
        return 4;
    if (f->identifier > 2047)
        return 1;
    if (f->identifier % 2)
        return 17;
    if (f->remote > 1 || f->count > 8 || (f->remote ? f->count != 0 : f->count == 0))
        return 2;
    unsigned priority = f->identifier >> 9;
    if (priority == 1 || priority == 2)
        return 3;
    if (f->remote)
        return priority == 3 ? 0 : 8;
    if (f->data[0] == 0xFF && f->count < 2)
        return 7;
    if (f->data[0] == 0xFF && !is_type(f->data[1]))
        return 4;
    unsigned own = type_for(type, f);
    return own == NONE ? 5 : judged(own, f);
}

/* ---- messages: where each field lies in the 20 bytes ---- */

enum { WHAT = 0, ADDRESS = 1, CHANNEL = 2, GLOW = 3, LOCATION = 4, BYTES = 6, TIME = 12, SECONDS = 16, MESSAGE = 20 };
enum { DIP_SWITCH = 1, PERMANENTLY = 2, COUNTED = 3 };

static void read_time(const uint8_t *from, uint8_t *m)
{
    uint32_t seconds = (uint32_t)from[0] << 16 | (uint32_t)from[1] << 8 | from[2];
    m[TIME] = seconds == 0 ? DIP_SWITCH : seconds == 0xFFFFFF ? PERMANENTLY : COUNTED;
    for (int i = 0; m[TIME] == COUNTED && i < 4; i++)
        m[SECONDS + i] = (uint8_t)(seconds >> 8 * i);
}

unsigned ref_read(uint32_t type, const struct ref_frame *f, uint8_t m[20])
{
    unsigned n = refusal(type, f);
    if (n)
        return n;
    memset(m, 0, MESSAGE);
    m[ADDRESS] = (uint8_t)(f->identifier >> 1);
    if (f->remote)
        return 0;
    const struct line *line = line_of(type_for(type, f), f->data[0]);
    const uint8_t *from = f->data + 1;
    uint8_t *to = m + BYTES;
    m[WHAT] = (uint8_t)line->what;
    for (const char *p = line->made; *p; p++)
        switch (*p) {
        case 't': from++; break;
        case 'c': m[CHANNEL] = *from++; break;
        case 'l': m[LOCATION + 1] = *from++; m[LOCATION] = *from++; break;
        case 'm': m[GLOW] = (uint8_t)(line->command - 0xF5); *to++ = *from++; break;
        case 'T': read_time(from, m); break;
        default: *to++ = *from++; break;
        }
    return 0;
}

static const struct line *line_written(const uint8_t *m)
{
    for (size_t i = 0; i < LINES; i++)
        if (lines[i].what == m[WHAT] && (*lines[i].made != 'm' || lines[i].command == 0xF5u + m[GLOW]))
            return &lines[i];
    return NULL;
}

static uint32_t seconds_of(const uint8_t *m)
{
    uint32_t seconds = 0;
    for (int i = 3; i >= 0; i--)
        seconds = seconds << 8 | m[SECONDS + i];
    return seconds;
}

/* whether nothing stands where a message of the line has no field, and its time is one */
static int is_message(const struct line *line, const uint8_t *m)
{
    uint8_t used[MESSAGE] = {1, 1};
    int next = BYTES;
    for (const char *p = line->made; *p; p++)
        switch (*p) {
        case 't': break;
        case 'c': used[CHANNEL] = 1; break;
        case 'l': used[LOCATION] = used[LOCATION + 1] = 1; break;
        case 'm': used[GLOW] = used[next++] = 1; break;
        case 'T': used[TIME] = 1; break;
        default: used[next++] = 1; break;
        }
    if (used[TIME] && (m[TIME] < DIP_SWITCH || m[TIME] > COUNTED))
        return 0;
    if (used[TIME] && m[TIME] == COUNTED)
        memset(used + SECONDS, 1, 4);
    for (int i = 0; i < MESSAGE; i++)
        if (m[i] && !used[i])
            return 0;
    return 1;
}

/* the data of a message of a line; the count of bytes */
static unsigned lay_data(const struct line *line, const uint8_t *m, uint8_t *d)
{
    const uint8_t *from = m + BYTES;
    unsigned n = 0;
    uint32_t number = m[TIME] == DIP_SWITCH ? 0 : m[TIME] == PERMANENTLY ? 0xFFFFFF : seconds_of(m);
    d[n++] = (uint8_t)line->command;
    for (const char *p = line->made; *p; p++)
        switch (*p) {
        case 't': d[n++] = line->types[0] == 'I' ? IR : line->types[0] == '1' ? BL : BL2; break;
        case 'c': d[n++] = m[CHANNEL]; break;
        case 'l': d[n++] = m[LOCATION + 1]; d[n++] = m[LOCATION]; break;
        case 'T': for (int i = 2; i >= 0; i--) d[n++] = (uint8_t)(number >> 8 * i); break;
        default: d[n++] = *from++; break;
        }
    return n;
}

static void lay_identifier(unsigned priority, const uint8_t *m, uint8_t *frame)
{
    unsigned identifier = priority << 9 | (unsigned)m[ADDRESS] << 1;
    frame[0] = (uint8_t)identifier;
    frame[1] = (uint8_t)(identifier >> 8);
}

unsigned ref_write(uint32_t type, const uint8_t m[20], uint8_t frame[12])
{
    static const struct line request = {"IB", 0, 0, 'l', ""};
    const struct line *line = m[WHAT] == request.what ? &request : line_written(m);
    if (type != NONE && !is_type(type))
        return 4;
    if (!line || !is_message(line, m))
        return 6;
    uint8_t out[12] = {0};
    if (line == &request) {
        out[2] = 1;
    } else {
        out[3] = (uint8_t)lay_data(line, m, out + 4);
        unsigned own = line->command == 0xFF ? out[5] : type;
        if (own == NONE)
            return 5;
        if (!has(own, line))
            return 6;
        unsigned n = field_refusal(own, out + 4, out[3]);
        if (n)
            return n;
        if (m[TIME] == COUNTED && (seconds_of(m) == 0 || seconds_of(m) > 16777214))
            return REF_AT(9, 3);
    }
    lay_identifier(priority_of(line), m, out);
    memcpy(frame, out, sizeof out);
    return 0;
}
