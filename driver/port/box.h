/* The box: its port, what it keeps beside the table, and whom it calls. */
#ifndef BOX_H
#define BOX_H

#include "port.h"
#include "requests.h"

/* The policy stands here too, since a damaged table cannot be asked for it. */
struct box {
	struct port port;
	uint8_t policy;
	struct kept_requests kept;
	const struct box_calls *calls;
	void *context;
};

/* Answers 0, or 9 with the box as it was. `calls` has to stay where it is; `context` is handed to each of them. */
uint8_t box_start(struct box *box, uint8_t policy, const struct box_calls *calls, void *context);

/* These two are for events.c and turns.c. */

/* Lets go of each task that the report lists, and sends its status. */
void box_send_ends(struct box *box, unsigned ended);
/* After the table was found damaged: lets go of every task, and has a fresh table with the same policy. */
void box_start_over(struct box *box);

#endif
