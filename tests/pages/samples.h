/* Tables and events to lend; no byte of a table is written by the library. */
#ifndef PAGES_SAMPLES_H
#define PAGES_SAMPLES_H

#include <stddef.h>
#include <stdint.h>

#include "calls.h"
#include "dedakhumi.h"
#include "layout.h"

/* Good tables that others are made from: places in the list of tables.c. */
enum { EMPTY = 0, CASE_B = 4, FULL = 7, ACA_ALONE = 11, ACA_AND_TASK = 12 };

struct sample_table {
	const char *name;
	uint8_t bytes[TABLE_LENGTH];
};

/* The refusal that the event's bytes ask for: BAD_EVENT, NEXUS_ABOVE_SEVEN, or DONE for none. */
struct sample_event {
	const char *name;
	struct dedakhumi_event event;
	enum answer refusal;
};

extern const size_t sample_event_count;
extern const size_t sample_table_count;
extern const size_t sample_damage_count;

struct sample_event sample_event(size_t index);
void sample_good_table(size_t index, struct sample_table *table);
/* A good table with a byte or two put wrong. */
void sample_bad_table(size_t index, struct sample_table *table);

#endif
