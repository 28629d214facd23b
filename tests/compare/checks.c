#include "checks.h"

#include "velbus.h"

#include <string.h>

struct buffer picture, data_in, out;
struct ref_picture reference;
static struct buffer message_in;

/* what a buffer held before a call, or must hold after it */
static uint8_t held[VELBUS_PICTURE_SIZE];

void make_buffers(void)
{
    picture = make_buffer(VELBUS_PICTURE_SIZE + 1);
    message_in = make_buffer(VELBUS_MESSAGE_SIZE);
    data_in = make_buffer(sizeof(((struct ref_frame *)0)->data));
    out = make_buffer(1024);
}

uint32_t refused(unsigned refusal) { return (uint32_t)refusal << 16; }

static uint32_t answer(unsigned refusal, uint32_t value) { return refusal ? refused(refusal) : value; }

/* the first of the refusals, in their order */
static unsigned first(unsigned a, unsigned b) { return a ? a : b; }

static unsigned too_short(size_t length, size_t need) { return length < need ? VELBUS_TOO_SHORT : 0; }

void set_out(size_t length)
{
    set_length(&out, length);
    memcpy(held, out.start, length);
}

static void same_held(const char *what)
{
    same_bytes(what, out.start, held, out.length);
    same(what, (unsigned)marks_stand(&out), 1);
}

void same_out(const char *what, unsigned refusal, const uint8_t *laid, size_t n)
{
    if (!refusal)
        memcpy(held, laid, n);
    same_held(what);
}

/* ---- frames and records ---- */

void check_write(uint32_t type, const uint8_t message[20], size_t given, size_t length)
{
    uint8_t laid[VELBUS_FRAME_SIZE];
    unsigned refusal = first(too_short(given, VELBUS_MESSAGE_SIZE), ref_write(type, message, laid));
    refusal = first(refusal, too_short(length, VELBUS_FRAME_SIZE));
    set_bytes(&message_in, message, given);
    set_out(length);
    same("write", velbus_write(type, message_in.start, given, out.start, length), answer(refusal, VELBUS_FRAME_SIZE));
    same_out("written frame", refusal, laid, sizeof laid);
}

void check_read(uint32_t type, const struct ref_frame *f, size_t length)
{
    uint8_t laid[VELBUS_MESSAGE_SIZE];
    about(f);
    unsigned refusal = first(ref_read(type, f, laid), too_short(length, VELBUS_MESSAGE_SIZE));
    set_bytes(&data_in, f->data, f->count);
    set_out(length);
    uint32_t word = velbus_read(type, f->identifier, f->remote, data_in.start, f->count, out.start, length);
    same("read", word, answer(refusal, VELBUS_MESSAGE_SIZE));
    same_out("message read", refusal, laid, sizeof laid);
    if (refusal)
        return;
    /* read and written again is the same frame */
    uint8_t again[VELBUS_FRAME_SIZE] = {(uint8_t)f->identifier, (uint8_t)(f->identifier >> 8), (uint8_t)f->remote, (uint8_t)f->count};
    memcpy(again + 4, f->data, f->count);
    check_write(type, laid, sizeof laid, VELBUS_FRAME_SIZE);
    same_bytes("read then written", out.start, again, sizeof again);
}

void check_record(size_t length, size_t at, uint64_t gap, const struct ref_frame *f)
{
    size_t put = 0;
    about(f);
    set_bytes(&data_in, f->data, f->count);
    set_out(length);
    unsigned refusal = ref_put_record(held, length, at, gap, f, &put);
    uint32_t word = velbus_put_record(out.start, length, at, gap, f->identifier, f->remote, data_in.start, f->count);
    same("put record", word, answer(refusal, (uint32_t)put));
    same_held("record put");
}

/* ---- events ---- */

static void hold_picture(void) { memcpy(held, picture.start, picture.length); }

static void same_event(const char *what, uint32_t word, unsigned refusal)
{
    same(what, word, refused(refusal));
    if (refusal)
        same_bytes("picture after a refusal", picture.start, held, picture.length);
    same("marks before the picture", (unsigned)marks_stand(&picture), 1);
}

void check_fresh(void)
{
    set_length(&picture, VELBUS_PICTURE_SIZE);
    same_event("fresh", velbus_fresh(picture.start, picture.length), ref_fresh(&reference, REF_DEPTH));
}

void check_fresh_depth(uint32_t depth)
{
    unsigned refusal = ref_fresh(&reference, depth);
    if (!refusal)
        set_length(&picture, VELBUS_PICTURE_SIZE);
    hold_picture();
    same_event("fresh with a depth", velbus_fresh_depth(picture.start, picture.length, depth), refusal);
}

void check_hear(const struct ref_frame *f)
{
    about(f);
    set_bytes(&data_in, f->data, f->count);
    hold_picture();
    uint32_t word = velbus_hear(picture.start, picture.length, f->identifier, f->remote, data_in.start, f->count);
    same_event("hear", word, ref_hear(&reference, f));
}

void check_step_back(void)
{
    hold_picture();
    uint32_t word = velbus_step_back(picture.start, picture.length);
    same_event("step back", word, ref_step_back(&reference));
}

/* ---- questions: 5 where no module is listed, 12 where it has no such place ---- */

static unsigned no_place(const struct ref_module *m, uint32_t place, uint32_t least, uint32_t most)
{
    return !m ? VELBUS_TYPE_NOT_KNOWN : place < least || place > most ? VELBUS_NO_SUCH_PLACE : 0;
}

void check_kept(void) { same("kept", velbus_kept(picture.start, picture.length), reference.kept); }

void check_listed(size_t length)
{
    uint8_t laid[256] = {0};
    for (size_t i = 0; i < reference.now.count; i++)
        laid[reference.now.module[i].address] = 1;
    unsigned refusal = too_short(length, sizeof laid);
    set_out(length);
    same("listed", velbus_listed(picture.start, picture.length, out.start, length), refused(refusal));
    same_out("listed", refusal, laid, sizeof laid);
}

void check_build(uint32_t address)
{
    const struct ref_module *m = ref_module_at(&reference, address);
    unsigned refusal = m ? 0 : VELBUS_TYPE_NOT_KNOWN;
    same("type", velbus_type(picture.start, picture.length, address), answer(refusal, m ? m->type : 0));
    same("build year", velbus_build_year(picture.start, picture.length, address), answer(refusal, m ? (uint32_t)m->year : 0));
    same("build week", velbus_build_week(picture.start, picture.length, address), answer(refusal, m ? (uint32_t)m->week : 0));
}

void check_cell(uint32_t address, uint32_t location)
{
    const struct ref_module *m = ref_module_at(&reference, address);
    unsigned refusal = no_place(m, location, 0, m ? ref_cells(m->type) - 1 : 0);
    uint32_t word = velbus_cell(picture.start, picture.length, address, location);
    same("cell", word, answer(refusal, refusal ? 0 : (uint32_t)m->cell[location]));
}

void check_led(uint32_t address, uint32_t led)
{
    const struct ref_module *m = ref_module_at(&reference, address);
    unsigned refusal = no_place(m, led, 1, m ? ref_leds(m->type) : 0);
    uint32_t word = velbus_led(picture.start, picture.length, address, led);
    same("LED", word, answer(refusal, refusal ? 0 : (uint32_t)m->led[led - 1]));
}

void check_blind(uint32_t address, uint32_t blind)
{
    const struct ref_module *m = ref_module_at(&reference, address);
    unsigned refusal = no_place(m, blind, 1, m ? ref_blinds(m->type) : 0);
    uint32_t word = velbus_blind(picture.start, picture.length, address, blind);
    same("blind", word, answer(refusal, refusal ? 0 : (uint32_t)m->blind[blind - 1]));
}

void check_name(uint32_t address, uint32_t name, size_t length)
{
    const struct ref_module *m = ref_module_at(&reference, address);
    unsigned refusal = first(no_place(m, name, 1, m ? ref_names(m->type) : 0), too_short(length, VELBUS_NAME_SIZE));
    uint8_t laid[VELBUS_NAME_SIZE] = {0};
    uint32_t heard = 0;
    for (unsigned i = 0; !refusal && i < VELBUS_NAME_LENGTH; i++) {
        int c = m->character[name - 1][i];
        heard += c != REF_UNKNOWN;
        laid[2 * i] = (uint8_t)c;
        laid[2 * i + 1] = (uint8_t)(c >> 8);
    }
    set_out(length);
    same("name", velbus_name(picture.start, picture.length, address, name, out.start, length), answer(refusal, heard));
    same_out("name", refusal, laid, sizeof laid);
}

void check_row(uint32_t address, size_t length)
{
    const struct ref_module *m = ref_module_at(&reference, address);
    unsigned cells = m ? ref_cells(m->type) : 0;
    unsigned refusal = m ? too_short(length, 2 * cells) : VELBUS_TYPE_NOT_KNOWN;
    uint8_t laid[2 * 256];
    for (unsigned i = 0; i < cells; i++) {
        laid[2 * i] = (uint8_t)m->cell[i];
        laid[2 * i + 1] = (uint8_t)(m->cell[i] >> 8);
    }
    set_out(length);
    same("memory row", velbus_memory_row(picture.start, picture.length, address, out.start, length), refused(refusal));
    same_out("memory row", refusal, laid, 2 * cells);
}
