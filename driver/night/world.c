#include "world.h"

static void send(void *context, uint8_t nexus, dedakhumi_tag tag, void *request, uint8_t status, struct sense sense)
{
	struct world *world = context;
	/* the trace has read tag and sense off the report and the answer */
	(void)tag;
	(void)sense;
	(void)request;
	world->hosts.host[nexus].heard[status]++;
}

static void run(void *context, uint8_t nexus, dedakhumi_tag tag, void *request)
{
	struct world *world = context;
	(void)request;
	if (!disk_takes(&world->disk, nexus, tag))
		world->faults++;
}

static void let_go(void *context, uint8_t nexus, dedakhumi_tag tag, void *request, bool at_disk, uint8_t status)
{
	struct world *world = context;
	struct asked_wish *asked = request;
	/* `send` does not look at the wish, so that its place is free now in any case */
	(void)status;
	asked->under_way = false;
	if (at_disk)
		disk_drops(&world->disk, nexus, tag);
}

/* Of the answers that a driver can only note. */
static const char *word_for(uint8_t answer)
{
	switch (answer) {
	case DEDAKHUMI_BAD_REPORT:
		return "our own report buffer has a wrong length; nothing has changed, and the event is given again";
	case DEDAKHUMI_BAD_EVENT:
		return "this is no event; nothing has changed, and the frame is dropped";
	case DEDAKHUMI_NEXUS_ABOVE_SEVEN:
		return "there is no such nexus; nothing has changed, and its login is refused";
	case DEDAKHUMI_NO_SUCH_TASK:
		return "the task has ended before, and its host knows; the completion is dropped";
	case DEDAKHUMI_NOT_ENABLED:
		return "the task waits; its completion is held back until it is enabled";
	default:
		return NULL;
	}
}

static void count_ends(struct world *world, unsigned ended)
{
	for (unsigned place = 0; place < ended; place++) {
		struct dedakhumi_ended end = dedakhumi_ended_at(world->box.port.report, place);
		world->hosts.host[end.nexus].ended++;
		world->hosts.host[end.nexus].silent += end.status == DEDAKHUMI_STATUS_NONE;
	}
}

void world_sees(struct world *world, const struct dedakhumi_event *event, const struct dedakhumi_answer *answer)
{
	const char *word = word_for(answer->answer);
	trace_event(&world->trace, &world->box.port, event, world->detail.bytes, answer);
	world->detail = (struct text){.used = 0};
	count_ends(world, answer->ended);
	if (word != NULL)
		trace_note("%s", word);
}

static void applied(void *context, const struct dedakhumi_event *event, const struct dedakhumi_answer *answer)
{
	world_sees(context, event, answer);
}

static void note(void *context, enum box_note note)
{
	struct world *world = context;
	switch (note) {
	case BOX_GIVES_AGAIN:
		text_add(&world->detail, "(held back)");
		break;
	case BOX_NAMING_REFUSED:
		trace_note("naming is answered 1 bad table");
		break;
	case BOX_STARTED_OVER:
		trace_note("started over with policy %02Xh; what was in the table is lost, and each of the eight will be told of a power on",
			world->box.policy);
		trace_remember(&world->trace, &world->box.port);
		break;
	case BOX_STRAY_END:
		trace_note("fault: the disk ends a task that it does not have; the end is dropped");
		world->faults++;
		break;
	case BOX_FAULT:
		trace_note("fault: a task without a request");
		world->faults++;
		break;
	}
}

bool world_start(struct world *world, uint8_t policy)
{
	static const struct box_calls calls = {.send = send, .run = run, .let_go = let_go, .applied = applied, .note = note};
	uint8_t answer = box_start(&world->box, policy, &calls, world);
	if (answer != DEDAKHUMI_DONE) {
		trace_note("start with policy %02Xh is answered %u %s; the table is as it was", policy, answer, answer_name(answer));
		return false;
	}
	disk_format(&world->disk);
	trace_note("started with policy %02Xh; each of the eight will be told of the power on", policy);
	trace_remember(&world->trace, &world->box.port);
	return true;
}
