/* Task management functions and conditions. */
#include "parts.h"

static struct dedakhumi_answer abort_tasks(uint8_t *table, uint8_t *report, struct ending ending)
{
	uint8_t ended = second_end_tasks(table, report, &ending);

	second_enable_eligible(table);
	return done(ended);
}

static struct dedakhumi_answer reject(uint8_t *report)
{
	memset(report, 0, REPORT_LENGTH);
	return plain_answer(ANSWER_REJECTED);
}

static struct dedakhumi_answer clear_aca(uint8_t *table, uint8_t *report, uint8_t nexus)
{
	struct ending ending = { .named = second_aca_task(table), .named_status = STATUS_NONE_SENT };

	if (table[HEADER_ACA] != 0 && table[HEADER_ACA] != nexus + 1)
		return reject(report);
	table[HEADER_ACA] = 0;
	return abort_tasks(table, report, ending);
}

/* The three resets: each pending byte keeps the bits of higher rank and gets the reset's own. */
static struct dedakhumi_answer reset(uint8_t *table, uint8_t *report, uint8_t kept, uint8_t given)
{
	struct ending ending = { .named = NO_TASK, .scope = ENDS_ALL };

	table[HEADER_ACA] = 0;
	table[HEADER_RUN] = 0;
	for (size_t nexus = 0; nexus < NEXUS_COUNT; nexus++) {
		uint8_t *pending = table + nexus_offset(nexus) + NEXUS_PENDING;

		*pending = (*pending & kept) | given;
	}
	return abort_tasks(table, report, ending);
}

static struct dedakhumi_answer nexus_loss(uint8_t *table, uint8_t *report, uint8_t nexus)
{
	struct ending ending = { .named = NO_TASK, .scope = ENDS_NEXUS, .causing_nexus = nexus };
	uint8_t *pending = table + nexus_offset(nexus) + NEXUS_PENDING;

	if (table[HEADER_ACA] == nexus + 1)
		table[HEADER_ACA] = 0;
	*pending = (*pending & (uint8_t)~PENDING_COMMANDS_CLEARED) | PENDING_NEXUS_LOSS;
	return abort_tasks(table, report, ending);
}

struct dedakhumi_answer second_management(uint8_t *table, uint8_t *report, const uint8_t *event)
{
	struct ending ending = { .named = NO_TASK, .causing_nexus = event[EVENT_NEXUS] };

	switch (event[EVENT_FIRST]) {
	case ABORT_TASK:
		ending.named = second_find(table, event);
		ending.named_status = STATUS_NONE_SENT;
		return abort_tasks(table, report, ending);
	case ABORT_TASK_SET:
		ending.scope = ENDS_NEXUS;
		return abort_tasks(table, report, ending);
	case CLEAR_TASK_SET:
		ending.scope = ENDS_ALL;
		ending.tells_others = true;
		return abort_tasks(table, report, ending);
	case CLEAR_ACA:
		return clear_aca(table, report, event[EVENT_NEXUS]);
	case LOGICAL_UNIT_RESET:
		return reset(table, report, PENDING_POWER_ON | PENDING_HARD_RESET, PENDING_LOGICAL_UNIT_RESET);
	default:
		return reject(report);
	}
}

struct dedakhumi_answer second_condition(uint8_t *table, uint8_t *report, const uint8_t *event)
{
	switch (event[EVENT_FIRST]) {
	case POWER_ON:
		return reset(table, report, 0, PENDING_POWER_ON);
	case HARD_RESET:
		return reset(table, report, PENDING_POWER_ON, PENDING_HARD_RESET);
	default:
		return nexus_loss(table, report, event[EVENT_NEXUS]);
	}
}
