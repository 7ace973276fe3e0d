#include "asides.h"

enum { ASIDE_NEXUS = 4, ASIDE_TAG = 0xA5 };

static struct dedakhumi_event completion_of_aside(unsigned turns)
{
	static const uint8_t statuses[] = {DEDAKHUMI_STATUS_GOOD, DEDAKHUMI_STATUS_BUSY, DEDAKHUMI_STATUS_RESERVATION_CONFLICT};
	return dedakhumi_completion_event(ASIDE_NEXUS, ASIDE_TAG, statuses[turns / 3 % sizeof statuses]);
}

/* By turns, so that each kind, and each status, comes at each run. */
static struct dedakhumi_event end_of_aside(unsigned turns)
{
	switch (turns % 3) {
	case 0:
		return dedakhumi_abort_task_event(ASIDE_NEXUS, ASIDE_TAG);
	case 1:
		return completion_of_aside(turns);
	default:
		return dedakhumi_nexus_loss_event(ASIDE_NEXUS);
	}
}

void play_aside(struct watch *watch)
{
	if (dedakhumi_task_count(watch->table) == DEDAKHUMI_TASKS)
		return;
	watch_command(watch, ASIDE_NEXUS, ASIDE_TAG, DEDAKHUMI_ATTRIBUTE_HEAD_OF_QUEUE);
	watch_aside(watch, end_of_aside(watch->turns), DEDAKHUMI_DONE);
	watch_aside(watch, completion_of_aside(watch->turns), DEDAKHUMI_NO_SUCH_TASK);
}
