#include <stdio.h>

#include "happening.h"
#include "names.h"

static void mean_done(const struct happening *happening)
{
	if (happening->event.kind == DEDAKHUMI_KIND_COMMAND)
		printf(": entered");
	if (happening->event.kind == DEDAKHUMI_KIND_MANAGEMENT)
		printf(": FUNCTION COMPLETE to nexus %u", happening->event.nexus);
}

static void mean_bad_event(const struct happening *happening)
{
	if (happening->length != DEDAKHUMI_EVENT_LENGTH)
		printf(": %zu byte%s, and an event has %d", happening->length, happening->length == 1 ? "" : "s", DEDAKHUMI_EVENT_LENGTH);
	else
		show_wrong_field(happening->record);
}

static void mean_nexus_above(const struct happening *happening)
{
	printf(": there is no nexus %u", happening->event.nexus);
}

static void mean_no_such_task(const struct happening *happening)
{
	printf(": %u.%u is not in the table", happening->event.nexus, happening->event.tag);
}

static uint8_t state_of(const struct happening *happening)
{
	for (size_t place = 0; place < dedakhumi_task_count(happening->table); place++) {
		struct dedakhumi_task task = dedakhumi_task_at(happening->table, place);
		if (task.nexus == happening->event.nexus && task.tag == happening->event.tag)
			return task.state;
	}
	return 0;
}

static void mean_not_enabled(const struct happening *happening)
{
	printf(": %u.%u is %s and has to wait", happening->event.nexus, happening->event.tag, state_name(state_of(happening)));
}

static void mean_entry(const struct happening *happening)
{
	const struct dedakhumi_answer *answer = &happening->answer;
	printf(": %u.%u %s", happening->event.nexus, happening->event.tag, status_name(answer->status));
	if (answer->status == DEDAKHUMI_STATUS_CHECK_CONDITION)
		printf(" %Xh/%02Xh/%02Xh %s", answer->key, answer->code, answer->qualifier, sense_meaning(answer->code, answer->qualifier));
}

static void mean_rejected(const struct happening *happening)
{
	uint8_t function = happening->event.first;
	printf(": FUNCTION REJECTED to nexus %u, ", happening->event.nexus);
	if (function == DEDAKHUMI_FUNCTION_CLEAR_ACA)
		printf("the ACA is that of nexus %u", dedakhumi_faulted_nexus(happening->table));
	else
		printf("there is no function %u", function);
}

static void show_ended(const struct happening *happening)
{
	for (size_t place = 0; place < happening->answer.ended; place++) {
		struct dedakhumi_ended ended = dedakhumi_ended_at(happening->report, place);
		printf("%s%u.%u %s%s", place == 0 ? "; ended: " : ", ", ended.nexus, ended.tag, status_name(ended.status),
			ended.status == DEDAKHUMI_STATUS_NONE ? " (nothing is sent)" : "");
	}
}

void show_answer(const struct happening *happening)
{
	static void (*const meanings[])(const struct happening *) = {[DEDAKHUMI_DONE] = mean_done, [DEDAKHUMI_BAD_EVENT] = mean_bad_event,
		[DEDAKHUMI_NEXUS_ABOVE_SEVEN] = mean_nexus_above, [DEDAKHUMI_NO_SUCH_TASK] = mean_no_such_task,
		[DEDAKHUMI_NOT_ENABLED] = mean_not_enabled, [DEDAKHUMI_ENDED_AT_ENTRY] = mean_entry, [DEDAKHUMI_REJECTED] = mean_rejected};
	uint8_t answer = happening->answer.answer;
	printf("  %u %s", answer, answer_name(answer));
	if (answer <= DEDAKHUMI_REJECTED && meanings[answer] != NULL)
		meanings[answer](happening);
	show_ended(happening);
	printf(answer == DEDAKHUMI_DONE || answer == DEDAKHUMI_ENDED_AT_ENTRY ? "\n" : "; nothing has changed\n");
}
