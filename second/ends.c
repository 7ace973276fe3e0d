/* Ending tasks in place, and the states of those that stay. */
#include "parts.h"

static bool ends(const struct ending *ending, const uint8_t *task, size_t place)
{
	if (place == ending->named || ending->scope == ENDS_ALL)
		return true;
	return ending->scope == ENDS_NEXUS && task[TASK_NEXUS] == ending->causing_nexus;
}

enum ending_scope second_qerr_scope(uint8_t policy)
{
	switch (policy & POLICY_QERR) {
	case QERR_ALL:
		return ENDS_ALL;
	case QERR_NEXUS:
		return ENDS_NEXUS;
	default:
		return ENDS_NO_OTHER;
	}
}

/* RULES 4.4: aborted tasks end with FFh, with one exception; 6.1 says who is told. */
static uint8_t ending_status(uint8_t *table, const struct ending *ending, const uint8_t *task, size_t place)
{
	if (place == ending->named)
		return ending->named_status;
	if (!ending->tells_others || task[TASK_NEXUS] == ending->causing_nexus)
		return STATUS_NONE_SENT;
	if (table[HEADER_POLICY] & POLICY_TAS)
		return STATUS_TASK_ABORTED;
	table[nexus_offset(task[TASK_NEXUS]) + NEXUS_PENDING] |= PENDING_COMMANDS_CLEARED;
	return STATUS_NONE_SENT;
}

static void write_ended(uint8_t *record, const uint8_t *task, uint8_t status)
{
	memcpy(record, ENDED_MARK, MARK_LENGTH);
	record[ENDED_NEXUS] = task[TASK_NEXUS];
	record[ENDED_STATUS] = status;
	memset(record + ENDED_REST, 0, ENDED_TAG - ENDED_REST);
	memcpy(record + ENDED_TAG, task + TASK_TAG, TAG_LENGTH);
}

static void free_records(uint8_t *table, size_t kept)
{
	for (size_t place = kept; place < table[HEADER_COUNT]; place++)
		write_unused(table + task_offset(place));
	table[HEADER_COUNT] = (uint8_t)kept;
}

uint8_t second_end_tasks(uint8_t *table, uint8_t *report, const struct ending *ending)
{
	size_t kept = 0;
	size_t ended = 0;

	for (size_t place = 0; place < table[HEADER_COUNT]; place++) {
		const uint8_t *task = table + task_offset(place);

		if (ends(ending, task, place)) {
			write_ended(report + ended * ENDED_LENGTH, task, ending_status(table, ending, task, place));
			ended++;
		} else {
			memmove(table + task_offset(kept), task, TASK_LENGTH);
			kept++;
		}
	}
	free_records(table, kept);
	memset(report + ended * ENDED_LENGTH, 0, REPORT_LENGTH - ended * ENDED_LENGTH);
	return (uint8_t)ended;
}

/* RULES 2.7: every eligible task is enabled, every other one dormant. */
void second_enable_eligible(uint8_t *table)
{
	size_t count = table[HEADER_COUNT];
	bool barrier = false;

	if (table[HEADER_ACA] != 0)
		return;
	for (size_t place = 0; place < count; place++) {
		uint8_t *task = table + task_offset(place);

		task[TASK_STATE] = is_eligible(task[TASK_ATTRIBUTE], place, barrier) ? ENABLED : DORMANT;
		barrier = barrier || is_barrier(task[TASK_ATTRIBUTE]);
	}
}

/* RULES 2.8: enabled tasks become blocked, dormant ones stay dormant. */
void second_begin_aca(uint8_t *table, uint8_t nexus)
{
	size_t count = table[HEADER_COUNT];

	table[HEADER_ACA] = nexus + 1;
	for (size_t place = 0; place < count; place++) {
		uint8_t *task = table + task_offset(place);

		if (task[TASK_STATE] == ENABLED)
			task[TASK_STATE] = BLOCKED;
	}
}
