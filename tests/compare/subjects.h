/* What is compared, a file for each subject. */
#ifndef SUBJECTS_H
#define SUBJECTS_H

#include "checks.h"

void every_length(void);
void every_record(unsigned long turns);
void every_frame(void);
void every_message(unsigned long turns);
void every_event(unsigned long events);
void strange_pictures(unsigned long turns);
void every_dialogue(unsigned long dialogues);

/* ---- drawn from likely.c ---- */

/* a byte at or beside an edge of some field, or any */
uint8_t edge(void);

/* a frame of one of the kinds that the papers list, to an address below `addresses`: of its length and priority, its fields mostly allowed */
unsigned kinds(void);
struct ref_frame made_frame(unsigned kind, unsigned addresses);

/* one of any kind, now and then damaged */
struct ref_frame likely_frame(unsigned addresses);

#endif
