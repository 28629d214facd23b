/* Runs of events from a fresh picture, with questions between them. */
#include "subjects.h"

#include "velbus.h"

#include <string.h>

/* mostly as much as is needed */
static size_t some_length(size_t need) { return draw(8) ? need + draw(3) : draw((uint32_t)need); }

static void ask_module(uint32_t address)
{
    check_build(address);
    for (unsigned i = 0; i < 6; i++)
        check_cell(address, draw(3) ? draw(260) : edge());
    for (uint32_t led = 0; led <= 9; led++)
        check_led(address, led);
    for (uint32_t blind = 0; blind <= 3; blind++)
        check_blind(address, blind);
    check_name(address, draw(10), some_length(VELBUS_NAME_SIZE));
    if (draw(4) == 0)
        check_row(address, some_length(512));
    check_plan(address, draw(3) ? some_length(VELBUS_PLAN_SIZE) : draw(VELBUS_PLAN_SIZE));
    check_proposed(address);
}

static void ask_everything(void)
{
    static uint8_t before[VELBUS_PICTURE_SIZE];
    memcpy(before, picture.start, sizeof before);
    check_kept();
    check_listed(some_length(256));
    for (size_t i = 0; i < reference.now.count; i++)
        if (draw(3) == 0)
            ask_module(reference.now.module[i].address);
    ask_module(draw(256));
    ask_module(draw(2) ? 256 + draw(300) : 0xFFFFFF2A);
    same_bytes("picture after questions", picture.start, before, sizeof before);
}

static struct ref_frame entry(unsigned addresses)
{
    struct ref_frame f;
    do
        f = made_frame(draw(kinds()), addresses);
    while (f.data[0] != 0xFF);
    return f;
}

/* no frame but an entry exchanges a module, and an exchange empties the way back */
static struct ref_frame calm_frame(unsigned addresses)
{
    struct ref_frame f;
    do
        f = likely_frame(addresses);
    while (f.data[0] == 0xFF);
    return f;
}

/* a fresh picture, of a depth at or beside an edge; one in nine names none */
static void begin(void)
{
    static const uint8_t depths[] = {0, 1, 2, 15, 16, 17, 63, 64};
    unsigned which = draw(sizeof depths + 1);
    if (which == sizeof depths)
        check_fresh();
    else
        check_fresh_depth(depths[which]);
}

/* all the way back, and one step more */
static void back_to_the_end(void)
{
    for (unsigned left = reference.kept; left; left--) {
        check_step_back();
        if (draw(8) == 0)
            ask_everything();
    }
    check_step_back();
    ask_everything();
}

/* A calm run has no exchange after its first entries and few steps back, so that it fills the way back and goes round the ring of the log. */
static void one_run(unsigned events)
{
    unsigned calm = draw(3) == 0, addresses = draw(3) == 0 ? 40 : 1 + draw(6), backs = calm ? 30 : 2 + draw(8);
    unsigned crowd = addresses == 40 ? draw(3 * VELBUS_MODULES) : calm * 2 * addresses; /* entries before all else, maybe more than there is room for */
    begin();
    for (unsigned i = 0; i < events; i++) {
        struct ref_frame f = i < crowd ? entry(addresses) : calm ? calm_frame(addresses) : likely_frame(addresses);
        if (draw(backs) == 0)
            check_step_back();
        else
            check_hear(&f);
        if (draw(3) == 0)
            ask_everything();
        if (draw(100) == 0)
            check_fresh_depth(REF_DEPTH + 1 + (draw(2) ? 0 : draw(1000))); /* refused, and nothing changes */
    }
    back_to_the_end();
}

void every_event(unsigned long events)
{
    for (unsigned long done = 0; done < events;) {
        unsigned n = 20 + draw(draw(2) ? 180 : 600);
        one_run(n);
        done += n;
    }
}
