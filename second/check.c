/* When a lent table is well formed, and an event or a policy good. */
#include "parts.h"

bool second_good_policy(uint8_t policy)
{
	return (policy & ~(POLICY_QERR | POLICY_TAS)) == 0 && (policy & POLICY_QERR) != QERR_BAD;
}

static bool good_header(const uint8_t *table)
{
	return has_mark(table, HEADER_MARK) && table[HEADER_FORM] == 1 && second_good_policy(table[HEADER_POLICY]) &&
		table[HEADER_COUNT] <= TASK_LIMIT && table[HEADER_ACA] <= NEXUS_COUNT &&
		table[HEADER_RUN] <= RUN_LIMIT && table[HEADER_LAST] == 0;
}

static bool good_nexus_records(const uint8_t *table)
{
	static const uint8_t zeros[NEXUS_LENGTH - NEXUS_REST];

	for (size_t nexus = 0; nexus < NEXUS_COUNT; nexus++) {
		const uint8_t *record = table + nexus_offset(nexus);

		if (!has_mark(record, NEXUS_MARK) || record[NEXUS_NUMBER] != nexus || record[NEXUS_PENDING] > PENDING_ALL ||
			memcmp(record + NEXUS_REST, zeros, sizeof zeros) != 0)
			return false;
	}
	return true;
}

static bool good_state_without_aca(const uint8_t *task, size_t place, bool barrier)
{
	if (task[TASK_ATTRIBUTE] > ORDERED)
		return false;
	return task[TASK_STATE] == (is_eligible(task[TASK_ATTRIBUTE], place, barrier) ? ENABLED : DORMANT);
}

static bool good_state_with_aca(const uint8_t *table, const uint8_t *task, size_t place, bool barrier)
{
	switch (task[TASK_ATTRIBUTE]) {
	case ACA:
		return place + 1 == table[HEADER_COUNT] && task[TASK_STATE] == ENABLED &&
			task[TASK_NEXUS] + 1 == table[HEADER_ACA];
	case HEAD_OF_QUEUE:
		return task[TASK_STATE] == BLOCKED;
	case SIMPLE:
	case ORDERED:
		return task[TASK_STATE] == DORMANT ||
			(task[TASK_STATE] == BLOCKED && is_eligible(task[TASK_ATTRIBUTE], place, barrier));
	default:
		return false;
	}
}

static bool good_task(const uint8_t *table, size_t place, bool barrier)
{
	const uint8_t *task = table + task_offset(place);

	if (!has_mark(task, TASK_MARK) || task[TASK_NEXUS] >= NEXUS_COUNT || task[TASK_CONTROL] > CONTROL_NACA)
		return false;
	if (table[HEADER_ACA] == 0)
		return good_state_without_aca(task, place, barrier);
	return good_state_with_aca(table, task, place, barrier);
}

static bool named_before(const uint64_t *names, size_t place)
{
	for (size_t older = 0; older < place; older++)
		if (names[older] == names[place])
			return true;
	return false;
}

static bool good_used_records(const uint8_t *table)
{
	size_t count = table[HEADER_COUNT];
	uint64_t names[TASK_LIMIT];
	bool barrier = false;

	for (size_t place = 0; place < count; place++) {
		const uint8_t *task = table + task_offset(place);

		if (!good_task(table, place, barrier))
			return false;
		names[place] = (uint64_t)task[TASK_NEXUS] << 8 * TAG_LENGTH | read_tag(task + TASK_TAG);
		if (named_before(names, place))
			return false;
		barrier = barrier || is_barrier(task[TASK_ATTRIBUTE]);
	}
	return true;
}

static bool good_unused_records(const uint8_t *table)
{
	for (size_t place = table[HEADER_COUNT]; place < TASK_LIMIT; place++)
		if (!is_unused(table + task_offset(place)))
			return false;
	return true;
}

bool second_well_formed(const uint8_t *table)
{
	return good_header(table) && good_nexus_records(table) && good_used_records(table) && good_unused_records(table);
}

/* RULES 16.2: what a disk may end a task with; the other statuses of layout.h are the box's own. */
static bool good_status(uint8_t status)
{
	switch (status) {
	case STATUS_GOOD:
	case STATUS_CHECK_CONDITION:
	case STATUS_BUSY:
	case STATUS_RESERVATION_CONFLICT:
		return true;
	default:
		return false;
	}
}

static bool good_management(const uint8_t *event)
{
	if (event[EVENT_SECOND] != 0)
		return false;
	if (event[EVENT_FIRST] < ABORT_TASK_SET || event[EVENT_FIRST] > LOGICAL_UNIT_RESET)
		return true;
	return read_tag(event + EVENT_TAG) == 0;
}

static bool good_condition(const uint8_t *event)
{
	if (event[EVENT_SECOND] != 0 || read_tag(event + EVENT_TAG) != 0)
		return false;
	switch (event[EVENT_FIRST]) {
	case POWER_ON:
	case HARD_RESET:
		return event[EVENT_NEXUS] == 0;
	case NEXUS_LOSS:
		return true;
	default:
		return false;
	}
}

bool second_good_event(const uint8_t *event)
{
	if (!has_mark(event, EVENT_MARK))
		return false;
	switch (event[EVENT_KIND]) {
	case COMMAND:
		return (event[EVENT_SECOND] & ~(CONTROL_NACA | COMMAND_EXEMPT)) == 0;
	case COMPLETION:
		return event[EVENT_SECOND] == 0 && good_status(event[EVENT_FIRST]);
	case MANAGEMENT:
		return good_management(event);
	case CONDITION:
		return good_condition(event);
	default:
		return false;
	}
}
