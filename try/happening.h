/* What a line has done to the box, and its words. */
#ifndef HAPPENING_H
#define HAPPENING_H

#include "dedakhumi.h"

struct happening {
	/* the table before it, and both as they are after it */
	const uint8_t *before, *table, *report;
	/* what was given, with zeros behind it, and what that says if it is an event at all */
	const uint8_t *record;
	size_t length;
	struct dedakhumi_fields event;
	struct dedakhumi_answer answer;
};

/* "0 done; ended: 0.1 GOOD": the answer, what it means, and which status was sent to whom. */
void show_answer(const struct happening *happening);
/* "0.2 O enabled, 1.1 S dormant; turn: 0.2" */
void show_table(const uint8_t *table);
/* "the tag (bytes 6 to 7) is 00 01, and has to be 0": why 8 bytes are no event. */
void show_wrong_field(const uint8_t *record);
/* "nexus 1, 3 will be told: ...": to whom the event gave a unit attention, and to whom it is not told any more. Nothing if there are none. */
void show_attentions(const struct happening *happening);
/* The same for all that waits in a table; "nothing waits" if nothing does. */
void show_pending(const uint8_t *table);
/* A line for all nexuses that have the same bits, and none for those without any: "nexus 0, 2 to 7", `told`, and the unit attentions with
   `between` between them. */
void show_by_nexus(const uint8_t bits[DEDAKHUMI_NEXUSES], const char *told, const char *between);
/* "a fresh table of policy 05h (QERR 01b, TAS 1)" */
void show_policy(uint8_t policy);

#endif
