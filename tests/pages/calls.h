/* The three operations on fenced buffers: each call is checked, and counted by its answer. */
#ifndef PAGES_CALLS_H
#define PAGES_CALLS_H

#include "fence.h"

/* RULES 18.1 */
enum answer {
	DONE = 0,
	BAD_TABLE = 1,
	BAD_REPORT = 2,
	BAD_EVENT = 3,
	NEXUS_ABOVE_SEVEN = 4,
	NO_SUCH_TASK = 5,
	NOT_ENABLED = 6,
	ENDED_AT_ENTRY = 7,
	REJECTED = 8,
	BAD_POLICY = 9
};

struct application {
	const char *what;
	struct lent table, report, event;
	enum place table_place, report_place, event_place;
};

void calls_prepare(void);
/* The refusal is the one of 1 to 4 that RULES 19.3 asks for, or DONE if it asks for none of them. */
enum answer call_apply(const struct application *application, enum answer refusal);
void call_start(const char *what, struct lent table, enum place place, uint8_t policy, enum answer expected);
enum answer call_name(const char *what, struct lent table, enum place place);
void call_name_expecting(const char *what, struct lent table, enum place place, enum answer expected);
/* Says how often each answer was given; false if one that an operation can give never was. */
bool calls_covered(void);
unsigned long calls_count(void);

#endif
