/* The last column of the trace: who was told what by an event, and who will be at its next command. */
#ifndef TOLD_H
#define TOLD_H

#include "port.h"
#include "text.h"

/* Longer lists of the trace are cut, with the number of the others. */
#define LISTED 4

/* `pending_before` has the pending bits of the eight from before the event. */
void add_told(struct text *text, const uint8_t *pending_before, const struct port *port, const struct dedakhumi_event *event,
	const struct dedakhumi_answer *answer);

#endif
