/* Dialogues with a bench, and a picture that listens to them. */
#include "subjects.h"

#include "velbus.h"

#include <string.h>

enum { REPLIES = VELBUS_BENCH_REPLIES * VELBUS_FRAME_SIZE };

static struct buffer bench, cells_in;
static struct ref_bench other;

/* what the bench's bytes and the reply buffer held before a call */
static uint8_t bench_held[VELBUS_BENCH_SIZE + 2], out_held[REPLIES + 2];

static void hold(void)
{
    memcpy(bench_held, bench.start, bench.length);
    memcpy(out_held, out.start, out.length);
}

static void same_bench(const char *what)
{
    same_bytes(what, bench.start, bench_held, bench.length);
    same(what, (unsigned)marks_stand(&bench), 1);
}

/* one in ten is refused, and changes nothing */
static int begin(void)
{
    uint32_t address = draw(10) ? 1 + draw(255) : draw(3) ? 256 * draw(2) : 256 + draw(1000);
    size_t length = draw(20) ? VELBUS_BENCH_SIZE + draw(3) : draw(VELBUS_BENCH_SIZE), given = draw(20) ? 256 + draw(3) : draw(256);
    uint8_t version = (uint8_t)draw(256), year = (uint8_t)draw(256), week = (uint8_t)draw(256);
    set_length(&bench, length);
    set_length(&cells_in, given);
    set_length(&out, 0);
    hold();
    unsigned refusal = length < VELBUS_BENCH_SIZE || given < 256 ? VELBUS_TOO_SHORT : ref_bench_new(&other, address, cells_in.start, version, year, week);
    same("bench made", velbus_bench_new(bench.start, length, address, cells_in.start, given, version, year, week), refused(refusal));
    if (refusal) {
        same_bench("bench refused");
        return 0;
    }
    same_bytes("bytes beyond the bench", bench.start + VELBUS_BENCH_SIZE, bench_held + VELBUS_BENCH_SIZE, length - VELBUS_BENCH_SIZE);
    return 1;
}

/* mostly at the bench's address; every kind of frame that a module receives or sends, now and then damaged */
static struct ref_frame to_bench(void)
{
    struct ref_frame f = likely_frame(256);
    if (draw(10))
        f.identifier = (f.identifier & ~0x1FEu) | (uint32_t)other.address << 1;
    return f;
}

static size_t some_room(void)
{
    switch (draw(8)) {
    case 0: return draw(40);
    case 1: return draw(REPLIES);
    default: return REPLIES + draw(3);
    }
}

/* one frame, put to both benches; the number of replies, which stand in replies */
static size_t check_take(const struct ref_frame *f, uint8_t replies[64][12])
{
    size_t count;
    about(f);
    set_bytes(&data_in, f->data, f->count);
    set_length(&out, some_room());
    hold();
    unsigned refusal = ref_bench_take(&other, f, out.length, replies, &count);
    uint32_t word = velbus_bench_take(bench.start, bench.length, f->identifier, f->remote, data_in.start, f->count, out.start, out.length);
    same("bench's answer", word, refusal ? refused(refusal) : (uint32_t)count);
    memcpy(out_held, replies, 12 * count);
    same_bytes("replies", out.start, out_held, out.length);
    same("replies", (unsigned)marks_stand(&out), 1);
    same("bench", (unsigned)marks_stand(&bench), 1);
    if (refusal || count == 0)
        return refusal ? 64 + 1 : 0;
    return count;
}

/* a reply, or a command, heard by the picture that listens: it is accepted */
static void listen(uint32_t identifier, uint32_t remote, const uint8_t *data, size_t count)
{
    same("heard of the bench", velbus_hear(picture.start, picture.length, identifier, remote, data, count), 0);
}

static void listen_to(const uint8_t frame[12]) { listen(frame[0] | (uint32_t)frame[1] << 8, frame[2], frame + 4, frame[3]); }

/* every told cell, character and LED is the bench's own; all of them are told where that is claimed */
static void check_shown(int whole)
{
    static const unsigned states[] = {0, 2, 3, 4}; /* by the blink bits: off, slow, fast, very fast */
    uint8_t name[VELBUS_NAME_SIZE];
    for (uint32_t l = 0; l < 256; l++) {
        uint32_t v = velbus_cell(picture.start, picture.length, other.address, l);
        same("cell shown", whole && v == VELBUS_UNKNOWN, 0);
        same("cell shown", v == VELBUS_UNKNOWN ? other.memory[l] : v, other.memory[l]);
    }
    for (uint32_t led = 1; led <= 8; led++) {
        unsigned i = led - 1, is = other.on >> i & 1 ? 1 : states[(other.slow >> i & 1) | (other.fast >> i & 1) << 1];
        uint32_t v = velbus_led(picture.start, picture.length, other.address, led);
        same("LED shown", whole && v == VELBUS_UNKNOWN, 0);
        same("LED shown", v == VELBUS_UNKNOWN ? is : v, is);
    }
    for (uint32_t n = 1; n <= 8; n++) {
        uint32_t heard = velbus_name(picture.start, picture.length, other.address, n, name, sizeof name);
        same("name whole", whole && heard != 16, 0);
        for (unsigned i = 0; i < 16; i++)
            same("character shown", name[2 * i + 1] ? other.memory[16 * (n - 1) + i] : name[2 * i], other.memory[16 * (n - 1) + i]);
    }
}

static int is_own(const struct ref_frame *f) { return (f->identifier >> 1 & 255) == other.address; }

/* a frame put to the bench and, where the bench took it, to the picture, which then hears the replies too; the answer is refused, or not */
static void take_and_listen(const struct ref_frame *f)
{
    static uint8_t replies[64][12];
    size_t count = check_take(f, replies);
    if (count > 64 || !is_own(f))
        return;
    listen(f->identifier, f->remote, f->data, f->count);
    for (size_t i = 0; i < count; i++)
        listen_to(replies[i]);
}

static struct ref_frame own_frame(uint32_t remote, size_t count, uint8_t command, uint8_t second)
{
    return (struct ref_frame){3 * 512 + 2 * (uint32_t)other.address, remote, count, {command, second}};
}

/* the type request, some frames, CB and FA */
static void one_dialogue(void)
{
    static uint8_t replies[64][12];
    if (!begin())
        return;
    struct ref_frame ask = own_frame(1, 0, 0, 0), dump = own_frame(0, 1, 0xCB, 0), status = own_frame(0, 2, 0xFA, (uint8_t)draw(256));
    set_length(&picture, VELBUS_PICTURE_SIZE);
    velbus_fresh(picture.start, picture.length);
    while (check_take(&ask, replies) != 1)
        ;
    listen(ask.identifier, 1, ask.data, 0);
    listen_to(replies[0]);
    for (unsigned n = 3 + draw(8); n; n--) {
        struct ref_frame f = to_bench();
        take_and_listen(&f);
    }
    if (draw(8))
        return;
    check_shown(0);
    while (check_take(&dump, replies) != 64)
        ;
    listen(dump.identifier, 0, dump.data, dump.count);
    for (size_t i = 0; i < 64; i++)
        listen_to(replies[i]);
    while (check_take(&status, replies) != 1)
        ;
    listen(status.identifier, 0, status.data, status.count);
    listen_to(replies[0]);
    check_shown(1);
}

void every_dialogue(unsigned long dialogues)
{
    bench = make_buffer(VELBUS_BENCH_SIZE + 2);
    cells_in = make_buffer(256 + 2);
    same("bench size", velbus_bench_size(), VELBUS_BENCH_SIZE);
    while (dialogues--)
        one_dialogue();
}
