/* A libFuzzer target: the bytes of an input are calls, put to the library and to the second implementation; it stops at a difference.
 * The first byte says how deep the way back is, the second how many modules are entered. A call is a byte that says which, and then its numbers, high byte first; what has
 * run out reads as 0. tests/fuzz/run builds and runs it. */
#include "subjects.h"

#include "velbus.h"

static const uint8_t *input;
static size_t left;

static uint64_t number(unsigned bytes)
{
    uint64_t value = 0;
    for (; bytes && left; bytes--, left--)
        value = value << 8 | *input++;
    return value;
}

/* an address, place or length: from twice the numbers that there are, so that too great a one is tried as well */
static uint32_t some(void) { return (uint32_t)number(2) & 0x1FF; }

/* a type that may be handed in, or any */
static uint32_t some_type(void)
{
    static const uint32_t known[] = {VELBUS_NO_TYPE, VELBUS_VMB1BL, VELBUS_VMB2BL, VELBUS_VMB8IR};
    uint32_t n = (uint32_t)number(1);
    return n < 0xC0 ? known[n % (sizeof known / sizeof known[0])] : n;
}

/* a frame of the tests' own table, so that runs go deep soon: its kind, address, what the fields are drawn with, and one byte altered */
static struct ref_frame made(void)
{
    unsigned kind = (unsigned)number(1) % kinds(), to = (unsigned)number(1) % (VELBUS_MODULES + 4);
    seed(number(2));
    struct ref_frame f = made_frame(kind, 1);
    f.identifier |= to << 1;
    unsigned at = (unsigned)number(1) % 16;
    if (at < f.count)
        f.data[at] = (uint8_t)number(1);
    return f;
}

/* any frame, or one that is made */
static struct ref_frame frame(void)
{
    struct ref_frame f = {0};
    unsigned shape = (unsigned)number(1);
    if (shape & 0x80)
        return made();
    f.remote = shape >> 4 & 3;
    f.count = shape & 15;
    f.identifier = number(2) & 0xFFF;
    for (size_t i = 0; i < f.count; i++)
        f.data[i] = (uint8_t)number(1);
    return f;
}

static void hear(void)
{
    struct ref_frame f = frame();
    check_hear(&f);
}

static void read_frame(void)
{
    uint32_t type = some_type();
    struct ref_frame f = frame();
    check_read(type, &f, number(1));
}

/* any 20 bytes, or the message that a frame is read as, with one altered */
static void message_from(uint32_t type, uint8_t message[VELBUS_MESSAGE_SIZE])
{
    if (number(1) & 1) {
        for (size_t i = 0; i < VELBUS_MESSAGE_SIZE; i++)
            message[i] = (uint8_t)number(1);
        return;
    }
    struct ref_frame f = frame();
    ref_read(type, &f, message);
    size_t at = number(1);
    if (at < VELBUS_MESSAGE_SIZE)
        message[at] = (uint8_t)number(1);
}

static void write_message(void)
{
    uint8_t message[VELBUS_MESSAGE_SIZE] = {0};
    uint32_t type = some_type();
    message_from(type, message);
    size_t missing = number(1);
    check_write(type, message, missing < sizeof message ? sizeof message - missing : 0, number(1));
}

static void put_record(void)
{
    struct ref_frame f = frame();
    size_t length = number(1), at = number(1);
    check_record(length, at, number(5), &f);
}

static void ask_listed(void)
{
    check_kept();
    check_listed(some());
}

static void ask_build(void) { check_build(some()); }

static void ask_cell(void)
{
    uint32_t a = some();
    check_cell(a, some());
}

static void ask_led(void)
{
    uint32_t a = some();
    check_led(a, some());
}

static void ask_blind(void)
{
    uint32_t a = some();
    check_blind(a, some());
}

static void ask_name(void)
{
    uint32_t a = some(), name = some();
    check_name(a, name, some());
}

static void ask_row(void)
{
    uint32_t a = some();
    check_row(a, number(2) & 0x3FF);
    check_plan(a, number(1));
}

/* every question that has an answer, of every module */
static void ask_everything(void)
{
    ask_listed();
    check_listed(256);
    for (size_t i = 0; i < reference.now.count; i++) {
        uint32_t a = reference.now.module[i].address;
        check_build(a);
        check_row(a, 2 * 256);
        check_plan(a, VELBUS_PLAN_SIZE);
        for (uint32_t k = 1; k <= 8; k++) {
            check_led(a, k);
            check_blind(a, k);
            check_name(a, k, VELBUS_NAME_SIZE);
        }
    }
}

/* modules of every type at the first addresses, and maybe more than there is room for */
static void enter_modules(unsigned n)
{
    for (unsigned i = 0; i < n; i++) {
        static const uint8_t types[] = {VELBUS_VMB8IR, VELBUS_VMB1BL, VELBUS_VMB2BL};
        uint8_t type = types[i % sizeof types];
        struct ref_frame f = {3u << 9 | i << 1, 0, type == VELBUS_VMB8IR ? 7 : 5, {0xFF, type}};
        check_hear(&f);
    }
}

static void (*const others[])(void) = {
    check_step_back, read_frame, write_message, put_record, ask_listed, ask_build, ask_cell, ask_led, ask_blind, ask_name, ask_row,
};

int LLVMFuzzerTestOneInput(const uint8_t *data, size_t size);

int LLVMFuzzerTestOneInput(const uint8_t *data, size_t size)
{
    if (!picture.page)
        make_buffers();
    input = data;
    left = size;
    seed(size);
    check_fresh();
    check_fresh_depth((uint32_t)number(1) % (REF_DEPTH + 4)); /* a depth that is refused leaves the picture that named none */
    enter_modules((unsigned)number(1) % (VELBUS_MODULES + 4));
    while (left) {
        unsigned which = (unsigned)number(1);
        if (which & 0x80) /* half of the calls are frames heard */
            hear();
        else
            others[which % (sizeof others / sizeof others[0])]();
    }
    ask_everything();
    return 0;
}
