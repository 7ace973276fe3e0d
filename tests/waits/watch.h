/* A table, and what a driver sees of it: bytes and answers, nothing else (RULES 22). What is not as the run has it ends the test. */
#ifndef WAITS_WATCH_H
#define WAITS_WATCH_H

#include "dedakhumi.h"
#include "figures.h"

/* The task whose wait is watched. */
enum { AWAITED_NEXUS = 2, AWAITED_TAG = 0 };

struct watch {
	/* which run it is, for a message */
	char run[80];
	uint8_t table[DEDAKHUMI_TABLE_LENGTH], report[DEDAKHUMI_REPORT_LENGTH];
	/* the ended count of the last answer */
	unsigned ended;
	/* when the awaited task was accepted */
	struct older older;
	unsigned long events;
	/* since then; `listed_at` is the turn whose report lists the task, and 0 as long as none does */
	unsigned turns, listed_at;
};

void watch_start(struct watch *watch, uint8_t policy);
/* An exempt command, so that the power on of a fresh table is not told. It has to be accepted. */
void watch_command(struct watch *watch, uint8_t nexus, dedakhumi_tag tag, uint8_t attribute);
/* The awaited task's command. */
void watch_accept(struct watch *watch, uint8_t attribute);
/* This has to be a turn. */
void watch_complete(struct watch *watch, uint8_t nexus, dedakhumi_tag tag, uint8_t status);
/* This must be no turn. */
void watch_aside(struct watch *watch, struct dedakhumi_event event, uint8_t answer);
bool watch_holds(const struct watch *watch, uint8_t nexus, dedakhumi_tag tag);
/* Ends the test if what is said is not so. */
void watch_demand(const struct watch *watch, bool so, const char *said);

#endif
