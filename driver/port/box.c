#include "box.h"

uint8_t box_start(struct box *box, uint8_t policy, const struct box_calls *calls, void *context)
{
	uint8_t answer = port_start(&box->port, policy);
	if (answer != DEDAKHUMI_DONE)
		return answer;
	box->policy = policy;
	box->kept = (struct kept_requests){.places = {{.stage = REQUEST_NONE}}};
	box->calls = calls;
	box->context = context;
	return answer;
}

static void let_go(struct box *box, struct kept_request *kept, uint8_t status)
{
	bool at_disk = kept->stage == REQUEST_AT_DISK;
	kept->stage = REQUEST_NONE;
	box->calls->let_go(box->context, kept->nexus, kept->tag, kept->request, at_disk, status);
}

static void send_status(struct box *box, const struct dedakhumi_ended *end, void *request, uint8_t status, struct sense sense)
{
	if (status != DEDAKHUMI_STATUS_NONE)
		box->calls->send(box->context, end->nexus, end->tag, request, status, sense);
}

/* The table was told GOOD for a status of the disk's that it does not take; the host hears the disk's own. */
static void send_kept_end(struct box *box, const struct dedakhumi_ended *end, struct kept_request *kept)
{
	uint8_t status = end->status == DEDAKHUMI_STATUS_GOOD ? kept->status : end->status;
	struct sense sense = {0, 0, 0};
	if (status == DEDAKHUMI_STATUS_CHECK_CONDITION)
		sense = kept->sense;
	let_go(box, kept, status);
	send_status(box, end, kept->request, status, sense);
}

static void send_end(struct box *box, struct dedakhumi_ended end)
{
	struct kept_request *kept = find_request(&box->kept, end.nexus, end.tag);
	if (kept != NULL) {
		send_kept_end(box, &end, kept);
		return;
	}
	box->calls->note(box->context, BOX_FAULT);
	send_status(box, &end, NULL, end.status, (struct sense){0, 0, 0});
}

void box_send_ends(struct box *box, unsigned ended)
{
	for (unsigned place = 0; place < ended; place++)
		send_end(box, dedakhumi_ended_at(box->port.report, place));
}

void box_start_over(struct box *box)
{
	for (unsigned place = 0; place < DEDAKHUMI_TASKS; place++)
		if (box->kept.places[place].stage != REQUEST_NONE)
			let_go(box, &box->kept.places[place], DEDAKHUMI_STATUS_NONE);
	port_start(&box->port, box->policy);
	box->calls->note(box->context, BOX_STARTED_OVER);
}
