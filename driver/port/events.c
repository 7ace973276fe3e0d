#include "events.h"

struct dedakhumi_answer box_apply(struct box *box, struct dedakhumi_event event)
{
	struct dedakhumi_answer answer = port_apply(&box->port, &event);
	box->calls->applied(box->context, &event, &answer);
	box_send_ends(box, answer.ended);
	if (answer.answer == DEDAKHUMI_BAD_TABLE)
		box_start_over(box);
	return answer;
}

struct dedakhumi_answer box_command(
	struct box *box, uint8_t nexus, dedakhumi_tag tag, uint8_t attribute, uint8_t control, void *request)
{
	struct dedakhumi_answer answer = box_apply(box, dedakhumi_command_event(nexus, tag, attribute, control));
	struct sense sense = {answer.key, answer.code, answer.qualifier};
	if (answer.answer == DEDAKHUMI_ENDED_AT_ENTRY)
		box->calls->send(box->context, nexus, tag, NULL, answer.status, sense);
	if (answer.answer == DEDAKHUMI_DONE && !keep_request(&box->kept, nexus, tag, request))
		box->calls->note(box->context, BOX_FAULT);
	return answer;
}

/* The four that the table takes, as they are (RULES 16.2). For any other GOOD, which ends the task and nothing else. */
static uint8_t status_for_table(uint8_t status)
{
	switch (status) {
	case DEDAKHUMI_STATUS_CHECK_CONDITION:
	case DEDAKHUMI_STATUS_BUSY:
	case DEDAKHUMI_STATUS_RESERVATION_CONFLICT:
		return status;
	default:
		return DEDAKHUMI_STATUS_GOOD;
	}
}

static struct dedakhumi_event end_event(uint8_t nexus, dedakhumi_tag tag, uint8_t status)
{
	return dedakhumi_completion_event(nexus, tag, status_for_table(status));
}

struct dedakhumi_answer box_give_end(struct box *box, const struct kept_request *kept)
{
	return box_apply(box, end_event(kept->nexus, kept->tag, kept->status));
}

/* The table would take it, and a command would be answered that was never carried out. */
static struct dedakhumi_answer drop_stray_end(struct box *box)
{
	box->calls->note(box->context, BOX_STRAY_END);
	return (struct dedakhumi_answer){.answer = DEDAKHUMI_NO_SUCH_TASK};
}

/* No task is known, so that this comes too late and is answered 5. */
static struct dedakhumi_answer give_late_end(struct box *box, uint8_t nexus, dedakhumi_tag tag, uint8_t status)
{
	struct dedakhumi_answer answer = box_apply(box, end_event(nexus, tag, status));
	if (answer.answer == DEDAKHUMI_NOT_ENABLED)
		box->calls->note(box->context, BOX_FAULT);
	return answer;
}

struct dedakhumi_answer box_complete(struct box *box, uint8_t nexus, dedakhumi_tag tag, uint8_t status, struct sense sense)
{
	struct kept_request *kept = find_request(&box->kept, nexus, tag);
	if (kept == NULL)
		return give_late_end(box, nexus, tag, status);
	if (kept->stage != REQUEST_AT_DISK)
		return drop_stray_end(box);
	/* answered 6 it stays so; else the task leaves the table, and the disk has nothing to drop */
	kept->stage = REQUEST_HELD_BACK;
	kept->status = status;
	kept->sense = sense;
	return box_give_end(box, kept);
}
