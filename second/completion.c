/* The end of a completed task (RULES 6), and the run that its turn counts (RULES 1.15). */
#include "parts.h"

/* RULES 1.16 and 9.2: only the task named before the event counts, and no ACA task. */
static void count_turn(uint8_t *table, size_t place)
{
	if (second_turn(table) != place)
		return;
	switch (table[task_offset(place) + TASK_ATTRIBUTE]) {
	case HEAD_OF_QUEUE:
		if (table[HEADER_RUN] < RUN_LIMIT)
			table[HEADER_RUN]++;
		break;
	case SIMPLE:
	case ORDERED:
		table[HEADER_RUN] = 0;
		break;
	}
}

/* NACA 1 sets up an ACA; NACA 0 on the ACA task clears the one that stands. */
static void settle_aca(uint8_t *table, uint8_t nexus, uint8_t attribute, uint8_t control)
{
	if (control & CONTROL_NACA)
		second_begin_aca(table, nexus);
	else if (attribute == ACA)
		table[HEADER_ACA] = 0;
}

struct dedakhumi_answer second_completion(uint8_t *table, uint8_t *report, const uint8_t *event)
{
	struct ending ending = {
		.named = second_find(table, event), .named_status = event[EVENT_FIRST],
		.scope = ENDS_NO_OTHER, .causing_nexus = event[EVENT_NEXUS], .tells_others = true
	};
	uint8_t attribute, control, ended;

	if (ending.named == NO_TASK)
		return plain_answer(ANSWER_NO_SUCH_TASK);
	if (table[task_offset(ending.named) + TASK_STATE] != ENABLED)
		return plain_answer(ANSWER_NOT_ENABLED);
	attribute = table[task_offset(ending.named) + TASK_ATTRIBUTE];
	control = table[task_offset(ending.named) + TASK_CONTROL];
	count_turn(table, ending.named);
	if (event[EVENT_FIRST] == STATUS_CHECK_CONDITION)
		ending.scope = second_qerr_scope(table[HEADER_POLICY]);
	ended = second_end_tasks(table, report, &ending);
	if (event[EVENT_FIRST] == STATUS_CHECK_CONDITION)
		settle_aca(table, event[EVENT_NEXUS], attribute, control);
	second_enable_eligible(table);
	return done(ended);
}
