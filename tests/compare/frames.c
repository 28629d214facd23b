/* Frames read, and written again: every type, command, length, priority and identifier, and every value of every byte. */
#include "subjects.h"

#include "velbus.h"

static const uint32_t types[] = {VELBUS_VMB1BL, VELBUS_VMB2BL, VELBUS_VMB8IR, VELBUS_NO_TYPE, 0x08, 0xFFFFFFFF};

enum { KNOWN_TYPES = 3, TYPES = sizeof types / sizeof types[0], COMMANDS = 256, COUNTS = 10, PRIORITIES = 4, TURNS = 12 };

/* takes the last digit off a number: so one number goes through every choice of several */
static unsigned digit(unsigned long *n, unsigned base)
{
    unsigned d = (unsigned)(*n % base);
    *n /= base;
    return d;
}

/* data of a turn: mostly edges; all zero, all ones, or small */
static uint8_t data_byte(unsigned turn) { return turn < 6 ? edge() : turn == 6 ? 0 : turn == 7 ? 0xFF : (uint8_t)draw(turn < 10 ? 4 : 9); }

static void any_frame(unsigned long n)
{
    struct ref_frame f = {0};
    unsigned turn = digit(&n, TURNS), priority = digit(&n, PRIORITIES);
    f.count = digit(&n, COUNTS);
    for (unsigned i = 0; i < f.count; i++)
        f.data[i] = data_byte(turn);
    unsigned command = digit(&n, COMMANDS);
    if (f.count)
        f.data[0] = (uint8_t)command;
    f.identifier = priority << 9 | draw(256) << 1 | (draw(40) == 0);
    f.remote = f.count == 0 ? draw(3) : draw(60) == 0;
    check_read(types[n], &f, VELBUS_MESSAGE_SIZE);
}

/* a frame that is well made but for one byte, which has a value */
static void any_byte(unsigned long n)
{
    unsigned turn = digit(&n, TURNS), value = digit(&n, 256), at = 1 + digit(&n, 7), type = digit(&n, KNOWN_TYPES);
    struct ref_frame f = made_frame((unsigned)n, 256);
    f.data[at] = (uint8_t)value;
    if (at < f.count)
        check_read(types[type], &f, turn ? VELBUS_MESSAGE_SIZE : draw(VELBUS_MESSAGE_SIZE));
}

/* the type request, and a frame that every type has, with an identifier */
static void any_identifier(uint32_t identifier)
{
    struct ref_frame request = {identifier, 1, 0, {0}}, dump_asked = {identifier, 0, 1, {0xCB}};
    check_read(types[draw(TYPES)], &request, VELBUS_MESSAGE_SIZE);
    check_read(types[draw(KNOWN_TYPES)], &dump_asked, VELBUS_MESSAGE_SIZE);
}

void every_frame(void)
{
    for (uint32_t n = 0; n < 5000; n++)
        any_identifier(n);
    any_identifier(UINT32_MAX);
    for (unsigned long n = 0; n < (unsigned long)TYPES * COMMANDS * COUNTS * PRIORITIES * TURNS; n++)
        any_frame(n);
    for (unsigned long n = 0; n < (unsigned long)kinds() * KNOWN_TYPES * 7 * 256 * TURNS; n++)
        any_byte(n);
}
