/* What comes from the hosts and from the disk. Each function applies an event, does what the answer asks for, and returns the answer. */
#ifndef EVENTS_H
#define EVENTS_H

#include "box.h"

/* Answered 0 it is a task, and `request` is kept until the box lets go of it. Answered otherwise nothing is kept; under 7 the host has been
   sent the status. */
struct dedakhumi_answer box_command(
	struct box *box, uint8_t nexus, dedakhumi_tag tag, uint8_t attribute, uint8_t control, void *request);
/* The disk has ended a task that it was given by `run`. `status` is any of the disk's but FFh, which is none, and is sent to the host as it
   is, CHECK CONDITION with its sense. The table is told GOOD, CHECK CONDITION, BUSY and RESERVATION CONFLICT as they are, and GOOD for any
   other; CHECK CONDITION alone does more than end the task. Answered 6 it is held back, and given again by the functions of turns.h.
   Answered 5 it is dropped: the task has left the table, or after BOX_STRAY_END the disk did not have it. */
struct dedakhumi_answer box_complete(struct box *box, uint8_t nexus, dedakhumi_tag tag, uint8_t status, struct sense sense);
/* A management function or a condition, made by the functions of dedakhumi.h. To the host that asked for a function, 0 is FUNCTION COMPLETE
   and 8 FUNCTION REJECTED. */
struct dedakhumi_answer box_apply(struct box *box, struct dedakhumi_event event);

/* This is for turns.c: gives the end that stands with the request. */
struct dedakhumi_answer box_give_end(struct box *box, const struct kept_request *kept);

#endif
