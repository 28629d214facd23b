/* Buffers of every length from 0 to one beyond what is needed: too short is 13, and not a byte is touched. */
#include "subjects.h"

#include "velbus.h"

#include <string.h>

enum { ADDRESS = 0x2A, IDENTIFIER = 3 << 9 | ADDRESS << 1 };

static const struct ref_frame request = {IDENTIFIER, 1, 0, {0}};

/* one module with one whole name, so that nothing but a length is refused */
static void one_module(void)
{
    static const struct ref_frame heard[] = {
        {IDENTIFIER, 0, 7, {0xFF, 0x0A, 0x12, 0x34, 0x01, 0x0C, 0x05}},
        {IDENTIFIER, 0, 8, {0xF0, 0x01, 'a', 'b', 'c', 'd', 'e', 'f'}},
        {IDENTIFIER, 0, 8, {0xF1, 0x01, 'g', 'h', 'i', 'j', 'k', 'l'}},
        {IDENTIFIER, 0, 6, {0xF2, 0x01, 'm', 'n', 'o', 'p'}},
    };
    check_fresh();
    for (size_t i = 0; i < sizeof heard / sizeof heard[0]; i++)
        check_hear(&heard[i]);
}

static void lent(size_t n)
{
    static const uint8_t message[VELBUS_MESSAGE_SIZE] = {VELBUS_TYPE_REQUEST, ADDRESS};
    check_name(ADDRESS, 1, n);
    check_listed(n);
    check_row(ADDRESS, n);
    check_plan(ADDRESS, n);
    check_read(VELBUS_NO_TYPE, &request, n);
    check_write(VELBUS_NO_TYPE, message, sizeof message, n);
    if (n <= sizeof message)
        check_write(VELBUS_NO_TYPE, message, n, VELBUS_FRAME_SIZE);
}

/* a picture of a length, its bytes all 0: an empty one of depth 0 where it is long enough */
static void picture_of(size_t n)
{
    static const uint8_t zeros[VELBUS_PICTURE_SIZE + 1];
    uint32_t word = n < VELBUS_PICTURE_SIZE ? refused(VELBUS_TOO_SHORT) : 0;
    set_bytes(&picture, zeros, n);
    set_bytes(&data_in, request.data, request.count);
    set_length(&out, 600);
    const uint8_t *p = picture.start;
    uint32_t asked = word ? word : refused(VELBUS_TYPE_NOT_KNOWN), back = word ? word : refused(VELBUS_NOTHING_KEPT);
    same("kept by length", velbus_kept(p, n), word);
    same("listed by length", velbus_listed(p, n, out.start, out.length), word);
    same("type by length", velbus_type(p, n, ADDRESS), asked);
    same("build year by length", velbus_build_year(p, n, ADDRESS), asked);
    same("build week by length", velbus_build_week(p, n, ADDRESS), asked);
    same("cell by length", velbus_cell(p, n, ADDRESS, 1), asked);
    same("LED by length", velbus_led(p, n, ADDRESS, 1), asked);
    same("blind by length", velbus_blind(p, n, ADDRESS, 1), asked);
    same("name by length", velbus_name(p, n, ADDRESS, 1, out.start, out.length), asked);
    same("memory row by length", velbus_memory_row(p, n, ADDRESS, out.start, out.length), asked);
    same("plan by length", velbus_plan(p, n, ADDRESS, out.start, out.length), asked);
    same("right plan by length", velbus_right_plan(p, n, ADDRESS, out.start, 0), asked);
    same("step back by length", velbus_step_back(picture.start, n), back);
    same("fresh with too great a depth by length", velbus_fresh_depth(picture.start, n, REF_DEPTH + 1), word ? word : refused(VELBUS_NO_SUCH_PLACE));
    same_bytes("picture by length", picture.start, zeros, n);
    same("hear by length", velbus_hear(picture.start, n, request.identifier, 1, data_in.start, 0), word);
    same("step back by length", velbus_step_back(picture.start, n), back);
    same("fresh with a depth by length", velbus_fresh_depth(picture.start, n, REF_DEPTH), word);
    same("fresh by length", velbus_fresh(picture.start, n), word);
    if (word)
        same_bytes("picture too short", picture.start, zeros, n);
    same("marks before the picture", (unsigned)marks_stand(&picture), 1);
}

void every_length(void)
{
    same("picture size", velbus_picture_size(), VELBUS_PICTURE_SIZE);
    one_module();
    for (size_t n = 0; n <= 2 * 256 + 1; n++)
        lent(n);
    for (size_t n = 0; n <= VELBUS_PICTURE_SIZE + 1; n++)
        picture_of(n);
}
