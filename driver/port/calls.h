/* What the box asks of the driver around it. None of these functions may call the box: it has not done with its event yet. */
#ifndef CALLS_H
#define CALLS_H

#include "dedakhumi.h"

/* Goes with CHECK CONDITION; with every other status all three are 0. */
struct sense {
	uint8_t key, code, qualifier;
};

enum box_note {
	/* the completion that is applied next was held back before */
	BOX_GIVES_AGAIN,
	/* dedakhumi_name answered 1; BOX_STARTED_OVER follows */
	BOX_NAMING_REFUSED,
	/* the table was damaged and is fresh now: its tasks are lost, and each host will be told of a power on */
	BOX_STARTED_OVER,
	/* box_complete was called for a task that the disk does not have: it was not run yet, or its end was given before. The end was dropped
	   and no event applied. The author's disk or queue errs. */
	BOX_STRAY_END,
	/* must not happen: a task is in the table or in a report and no request is kept for it, or there is no place to keep one */
	BOX_FAULT
};

/* All five have to be there; `applied` and `note` may do nothing. */
struct box_calls {
	/* Sends the status to the host. For a task `request` is the one that was let go just before, and once this has returned the box does not
	   mention it again; status and sense are the disk's, or the status is TASK ABORTED. For a command that ended at entry `request` is NULL,
	   since none was kept, and status and sense are the library's. */
	void (*send)(void *context, uint8_t nexus, dedakhumi_tag tag, void *request, uint8_t status, struct sense sense);
	/* Gives the task to the disk, whose end of it comes to box_complete once this has returned. */
	void (*run)(void *context, uint8_t nexus, dedakhumi_tag tag, void *request);
	/* The task has left the table. `status` is what `send` is called with next, for the same request: that is free after `send` then. With
	   DEDAKHUMI_STATUS_NONE nothing is sent, and it is free after this. `at_disk`: the task was aborted while the disk had it, so far as the
	   box was told. The disk has to drop it before this returns, and with `at_disk` its end, if it waits in a queue, is taken out too:
	   tasks that waited for it are enabled now, and its host may use the tag again, so that the end would be taken for a newer task's. */
	void (*let_go)(void *context, uint8_t nexus, dedakhumi_tag tag, void *request, bool at_disk, uint8_t status);
	/* The library has answered an event, be it accepted or refused, and nothing that it brings has been sent yet. The box's port holds the
	   table, and after the answers 0 and 7 the report of it. */
	void (*applied)(void *context, const struct dedakhumi_event *event, const struct dedakhumi_answer *answer);
	void (*note)(void *context, enum box_note note);
};

#endif
