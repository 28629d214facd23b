/* The library compared with the second implementation. Every buffer ends at a page that must not be touched, and has marks before it.
 * usage: compare [seed [events]]. Exit status 0 where everything agrees; the first difference is printed. */
#include "subjects.h"

#include <stdio.h>
#include <stdlib.h>
#include <time.h>

int main(int argc, char **argv)
{
    uint64_t with = argc > 1 ? strtoull(argv[1], NULL, 0) : (uint64_t)time(NULL);
    unsigned long events = argc > 2 ? strtoul(argv[2], NULL, 0) : 200000;
    printf("seed %llu, %lu events\n", (unsigned long long)with, events);
    fflush(stdout);
    seed(with);
    make_buffers();
    every_length();
    every_record(events / 4);
    every_frame();
    every_message(events / 2);
    strange_pictures(events / 1000);
    every_event(events);
    every_dialogue(events / 4);
    printf("%llu comparisons agree\n", comparisons());
    return 0;
}
