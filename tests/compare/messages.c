/* Messages written as a host might make them: right ones, and ones that are damaged. */
#include "subjects.h"

#include "velbus.h"

#include <string.h>

static const uint32_t types[] = {VELBUS_NO_TYPE, VELBUS_VMB1BL, VELBUS_VMB2BL, VELBUS_VMB8IR, 7};

/* the seconds of a blind's message, at and beside their edges, and nothing besides */
static void likely_seconds(uint8_t m[20])
{
    static const uint32_t times[] = {0, 1, 16777214, 16777215, 16777216, 0xFFFFFFFF};
    uint32_t seconds = times[draw(sizeof times / sizeof times[0])];
    memset(m + VELBUS_AT_CHANNEL, 0, VELBUS_AT_TIME - VELBUS_AT_CHANNEL);
    m[VELBUS_AT_CHANNEL] = draw(2) ? 0x03 : 0x0C;
    m[VELBUS_AT_TIME] = VELBUS_SECONDS;
    for (unsigned i = 0; i < 4; i++)
        m[VELBUS_AT_SECONDS + i] = (uint8_t)(seconds >> 8 * i);
}

static void likely_message(uint8_t m[20])
{
    m[VELBUS_AT_WHAT] = (uint8_t)draw(VELBUS_TYPE_VMB2BL + 3);
    m[VELBUS_AT_ADDRESS] = (uint8_t)draw(256);
    for (unsigned i = VELBUS_AT_CHANNEL; i <= VELBUS_AT_TIME; i++)
        if (draw(3) == 0)
            m[i] = draw(2) ? edge() : (uint8_t)draw(5);
    for (unsigned i = VELBUS_AT_SECONDS, some = draw(3) == 0; some && i < VELBUS_MESSAGE_SIZE; i++)
        m[i] = edge();
    if ((m[VELBUS_AT_WHAT] == VELBUS_BLIND_UP_FOR || m[VELBUS_AT_WHAT] == VELBUS_BLIND_DOWN_FOR) && draw(2))
        likely_seconds(m);
    if (draw(50) == 0)
        m[VELBUS_AT_TIME + 1 + draw(3)] = (uint8_t)draw(256);
}

void every_message(unsigned long turns)
{
    for (unsigned long i = 0; i < turns; i++) {
        uint8_t m[VELBUS_MESSAGE_SIZE] = {0};
        likely_message(m);
        check_write(types[draw(sizeof types / sizeof types[0])], m, sizeof m, VELBUS_FRAME_SIZE);
    }
}
