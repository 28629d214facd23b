/* Pictures of random bytes: every call ends, and writes nowhere else. What it answers is not compared. */
#include "subjects.h"

#include "velbus.h"

static void event(void)
{
    struct ref_frame f = likely_frame(256);
    about(&f);
    set_bytes(&data_in, f.data, f.count);
    if (draw(3))
        velbus_hear(picture.start, picture.length, f.identifier, f.remote, data_in.start, f.count);
    else
        velbus_step_back(picture.start, picture.length);
}

static void questions(uint32_t address)
{
    const uint8_t *p = picture.start;
    size_t n = picture.length;
    set_length(&out, draw(600));
    velbus_kept(p, n);
    velbus_type(p, n, address);
    velbus_build_year(p, n, address);
    velbus_build_week(p, n, address);
    velbus_cell(p, n, address, draw(300));
    velbus_led(p, n, address, draw(10));
    velbus_blind(p, n, address, draw(4));
    velbus_name(p, n, address, draw(10), out.start, out.length);
    velbus_memory_row(p, n, address, out.start, out.length);
    velbus_listed(p, n, out.start, out.length);
    velbus_plan(p, n, address, out.start, out.length);
    velbus_right_plan(p, n, address, out.start, draw((uint32_t)out.length + 1));
}

void strange_pictures(unsigned long turns)
{
    for (unsigned long i = 0; i < turns; i++) {
        set_length(&picture, VELBUS_PICTURE_SIZE);
        if (draw(2)) /* a number of modules that is one, or nearly */
            picture.start[0] = (uint8_t)draw(20);
        for (unsigned j = 0; j < 40; j++) {
            event();
            questions(draw(260));
            same("marks", (unsigned)(marks_stand(&picture) && marks_stand(&out)), 1);
        }
    }
}
