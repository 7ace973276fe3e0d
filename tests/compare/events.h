/* Single events, more or less random, that the streams are made of. */
#ifndef COMPARE_EVENTS_H
#define COMPARE_EVENTS_H

#include "trial.h"

/* Which nexuses and tags an event may have: those below the two numbers. */
struct range {
	unsigned nexuses;
	uint64_t tags;
};

void event_write(struct step *step, uint8_t kind, uint8_t nexus, uint8_t first, uint8_t second, tag_number tag);
void event_command(uint64_t *random, struct step *step, struct range range, uint8_t attribute, unsigned exempt_percent);
/* These three of a task in the table as a rule, else of any in the range. */
void event_overlapped_command(uint64_t *random, const uint8_t *table, struct step *step, struct range range);
void event_completion(uint64_t *random, const uint8_t *table, struct step *step, struct range range, uint8_t status);
void event_abort_task(uint64_t *random, const uint8_t *table, struct step *step, struct range range);
void event_management(uint64_t *random, struct step *step, struct range range);
void event_condition(uint64_t *random, struct step *step, struct range range);
/* Any of the four kinds. */
void event_any(uint64_t *random, const uint8_t *table, struct step *step, struct range range);
/* For the given percentage one that ends its task and does no more: GOOD, as often BUSY or RESERVATION CONFLICT; else CHECK CONDITION. */
uint8_t random_status(uint64_t *random, unsigned quiet_percent);
/* A first byte that no completion may have: another status of SAM-4's, or one that is a bit or two from one that is taken. */
uint8_t random_bad_status(uint64_t *random);

#endif
