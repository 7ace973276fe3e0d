#include "turns.h"

#include "events.h"

/* The oldest enabled task whose completion was held back; NULL if there is none. */
static const struct kept_request *find_held(struct box *box)
{
	for (size_t place = 0; place < dedakhumi_task_count(box->port.table); place++) {
		struct dedakhumi_task task = dedakhumi_task_at(box->port.table, place);
		const struct kept_request *kept = find_request(&box->kept, task.nexus, task.tag);
		if (task.state == DEDAKHUMI_STATE_ENABLED && kept != NULL && kept->stage == REQUEST_HELD_BACK)
			return kept;
	}
	return NULL;
}

/* Each one may enable others. */
static void give_again(struct box *box)
{
	const struct kept_request *held = find_held(box);
	while (held != NULL) {
		box->calls->note(box->context, BOX_GIVES_AGAIN);
		box_give_end(box, held);
		held = find_held(box);
	}
}

static struct dedakhumi_turn ask_whose_turn(struct box *box)
{
	struct dedakhumi_turn turn = port_turn(&box->port);
	if (turn.answer == DEDAKHUMI_BAD_TABLE) {
		box->calls->note(box->context, BOX_NAMING_REFUSED);
		box_start_over(box);
	}
	return turn;
}

static bool give_to_disk(struct box *box, uint8_t nexus, dedakhumi_tag tag)
{
	struct kept_request *kept = find_request(&box->kept, nexus, tag);
	if (kept == NULL)
		box->calls->note(box->context, BOX_FAULT);
	if (kept == NULL || kept->stage != REQUEST_WAITS)
		return false;
	kept->stage = REQUEST_AT_DISK;
	box->calls->run(box->context, nexus, tag, kept->request);
	return true;
}

bool box_run_named(struct box *box)
{
	give_again(box);
	struct dedakhumi_turn turn = ask_whose_turn(box);
	return turn.found && give_to_disk(box, turn.nexus, turn.tag);
}

unsigned box_run_enabled(struct box *box)
{
	unsigned given = 0;
	give_again(box);
	/* no record of a damaged table is believed */
	ask_whose_turn(box);
	for (size_t place = 0; place < dedakhumi_task_count(box->port.table); place++) {
		struct dedakhumi_task task = dedakhumi_task_at(box->port.table, place);
		given += task.state == DEDAKHUMI_STATE_ENABLED && give_to_disk(box, task.nexus, task.tag);
	}
	return given;
}
