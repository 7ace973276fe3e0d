/* Entry of a command: the six checks in their order (RULES 5). */
#include "parts.h"

static struct dedakhumi_answer entry_status(uint8_t *report, uint8_t status)
{
	memset(report, 0, REPORT_LENGTH);
	return (struct dedakhumi_answer){ .answer = ANSWER_ENDED_AT_ENTRY, .status = status };
}

struct sense {
	uint8_t key, code, qualifier;
};

/* RULES 5.16 to 5.18: QERR besides what the check ends itself, then NACA; where an ACA is in effect, neither. */
static struct dedakhumi_answer check_condition(uint8_t *table, uint8_t *report, const uint8_t *event, struct sense sense,
	enum ending_scope scope)
{
	struct ending ending = { .named = NO_TASK, .scope = scope, .causing_nexus = event[EVENT_NEXUS], .tells_others = true };
	struct dedakhumi_answer answer = {
		.answer = ANSWER_ENDED_AT_ENTRY, .status = STATUS_CHECK_CONDITION,
		.key = sense.key, .code = sense.code, .qualifier = sense.qualifier
	};
	bool acts = table[HEADER_ACA] == 0;

	if (acts && second_qerr_scope(table[HEADER_POLICY]) > scope)
		ending.scope = second_qerr_scope(table[HEADER_POLICY]);
	answer.ended = second_end_tasks(table, report, &ending);
	if (acts && (event[EVENT_SECOND] & CONTROL_NACA))
		second_begin_aca(table, event[EVENT_NEXUS]);
	second_enable_eligible(table);
	return answer;
}

/* Check 2: the status that an ACA in effect gives, or GOOD where the command goes on. */
static uint8_t aca_status(const uint8_t *table, const uint8_t *event)
{
	if (table[HEADER_ACA] == 0)
		return STATUS_GOOD;
	if (table[HEADER_ACA] != event[EVENT_NEXUS] + 1)
		return event[EVENT_SECOND] & CONTROL_NACA ? STATUS_ACA_ACTIVE : STATUS_BUSY;
	if (event[EVENT_FIRST] == ACA && second_aca_task(table) == NO_TASK)
		return STATUS_GOOD;
	return STATUS_ACA_ACTIVE;
}

/* Check 3: the lowest bit set has the highest rank. */
static struct sense take_unit_attention(uint8_t *pending)
{
	uint8_t highest = *pending & (uint8_t)-*pending;

	*pending &= (uint8_t)~highest;
	switch (highest) {
	case PENDING_POWER_ON:
		return (struct sense){ 0x06, 0x29, 0x00 };
	case PENDING_HARD_RESET:
		return (struct sense){ 0x06, 0x29, 0x02 };
	case PENDING_LOGICAL_UNIT_RESET:
		return (struct sense){ 0x06, 0x29, 0x03 };
	case PENDING_NEXUS_LOSS:
		return (struct sense){ 0x06, 0x29, 0x07 };
	default:
		return (struct sense){ 0x06, 0x2F, 0x00 };
	}
}

/* Check 4 */
static bool good_attribute(const uint8_t *table, uint8_t attribute)
{
	return attribute <= ORDERED || (attribute == ACA && table[HEADER_ACA] != 0);
}

/* Check 6: past check 2 in an ACA comes only the ACA task, which is enabled there. */
static struct dedakhumi_answer accept(uint8_t *table, uint8_t *report, const uint8_t *event)
{
	uint8_t *task = table + task_offset(table[HEADER_COUNT]);

	task[TASK_NEXUS] = event[EVENT_NEXUS];
	task[TASK_ATTRIBUTE] = event[EVENT_FIRST];
	task[TASK_STATE] = ENABLED;
	task[TASK_CONTROL] = event[EVENT_SECOND] & CONTROL_NACA;
	memcpy(task + TASK_TAG, event + EVENT_TAG, TAG_LENGTH);
	table[HEADER_COUNT]++;
	second_enable_eligible(table);
	memset(report, 0, REPORT_LENGTH);
	return done(0);
}

struct dedakhumi_answer second_command(uint8_t *table, uint8_t *report, const uint8_t *event)
{
	static const struct sense overlapped = { 0x0B, 0x4E, 0x00 }, bad_attribute = { 0x05, 0x49, 0x00 };
	uint8_t *pending = table + nexus_offset(event[EVENT_NEXUS]) + NEXUS_PENDING;
	uint8_t status;

	if (second_find(table, event) != NO_TASK)
		return check_condition(table, report, event, overlapped, ENDS_NEXUS);
	status = aca_status(table, event);
	if (status != STATUS_GOOD)
		return entry_status(report, status);
	if (*pending != 0 && !(event[EVENT_SECOND] & COMMAND_EXEMPT))
		return check_condition(table, report, event, take_unit_attention(pending), ENDS_NO_OTHER);
	if (!good_attribute(table, event[EVENT_FIRST]))
		return check_condition(table, report, event, bad_attribute, ENDS_NO_OTHER);
	if (table[HEADER_COUNT] == TASK_LIMIT)
		return entry_status(report, STATUS_TASK_SET_FULL);
	return accept(table, report, event);
}
