/* The worst runs (RULES 23.9): of all events that may come, those that keep a task waiting the longest. */
#ifndef WAITS_RUNS_H
#define WAITS_RUNS_H

#include "watch.h"

struct run {
	struct older older;
	uint8_t attribute, policy;
	/* Not of RULES 23.9, and with the same figures: the others are ORDERED, a newcomer stands in the table before each turn where there is room for one, more
	   comes aside, and ends are GOOD, BUSY and RESERVATION CONFLICT in turn, and CHECK CONDITION too where QERR ends nobody. */
	bool pressed;
};

/* Up to the awaited task's command. */
void run_before(const struct run *run, struct watch *watch);
/* All turns before the awaited task's own. */
void run_since(const struct run *run, struct watch *watch);
/* That one. */
void run_end(const struct run *run, struct watch *watch);

#endif
