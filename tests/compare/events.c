#include "events.h"
#include "random.h"

void event_write(struct step *step, uint8_t kind, uint8_t nexus, uint8_t first, uint8_t second, tag_number tag)
{
	struct dedakhumi_event event = dedakhumi_event_of(kind, nexus, first, second, tag);

	memcpy(step->event, event.bytes, sizeof event.bytes);
}

uint8_t random_status(uint64_t *random, unsigned quiet_percent)
{
	if (!random_percent(random, quiet_percent))
		return STATUS_CHECK_CONDITION;
	if (random_percent(random, 50))
		return STATUS_GOOD;
	return random_percent(random, 50) ? STATUS_BUSY : STATUS_RESERVATION_CONFLICT;
}

uint8_t random_bad_status(uint64_t *random)
{
	static const uint8_t statuses[] = { 0x01, 0x04, 0x0A, 0x0C, 0x10, 0x14, 0x1A, 0x1C, 0x22, 0x28, 0x30, 0x38, 0x40, 0x48, 0x58, 0x88, 0x98, 0xFF };

	return statuses[random_below(random, sizeof statuses)];
}

static uint8_t random_nexus(uint64_t *random, struct range range)
{
	return (uint8_t)random_below(random, range.nexuses);
}

static tag_number random_tag(uint64_t *random, struct range range)
{
	return (tag_number)random_below(random, range.tags);
}

void event_command(uint64_t *random, struct step *step, struct range range, uint8_t attribute, unsigned exempt_percent)
{
	uint8_t second = (uint8_t)random_below(random, 2);

	if (random_percent(random, exempt_percent))
		second |= COMMAND_EXEMPT;
	event_write(step, COMMAND, random_nexus(random, range), attribute, second, random_tag(random, range));
}

static void aim_at_task(uint64_t *random, const uint8_t *table, struct step *step, struct range range)
{
	uint8_t *event = step->event;
	tag_number tag = random_tag(random, range);
	const uint8_t *task;

	event[EVENT_NEXUS] = random_nexus(random, range);
	write_tag(event + EVENT_TAG, tag);
	/* A damaged table may have any count. */
	if (table[HEADER_COUNT] == 0 || table[HEADER_COUNT] > TASK_LIMIT || random_percent(random, 10))
		return;
	task = table + task_offset(random_below(random, table[HEADER_COUNT]));
	event[EVENT_NEXUS] = task[TASK_NEXUS];
	memcpy(event + EVENT_TAG, task + TASK_TAG, TAG_LENGTH);
}

void event_overlapped_command(uint64_t *random, const uint8_t *table, struct step *step, struct range range)
{
	event_command(random, step, range, SIMPLE, 50);
	aim_at_task(random, table, step, range);
}

void event_completion(uint64_t *random, const uint8_t *table, struct step *step, struct range range, uint8_t status)
{
	event_write(step, COMPLETION, 0, status, 0, 0);
	aim_at_task(random, table, step, range);
}

void event_abort_task(uint64_t *random, const uint8_t *table, struct step *step, struct range range)
{
	event_write(step, MANAGEMENT, 0, ABORT_TASK, 0, 0);
	aim_at_task(random, table, step, range);
}

void event_management(uint64_t *random, struct step *step, struct range range)
{
	uint8_t function = (uint8_t)random_below(random, 7);
	bool any_tag = function < ABORT_TASK_SET || function > LOGICAL_UNIT_RESET;

	event_write(step, MANAGEMENT, random_nexus(random, range), function, 0, any_tag ? random_tag(random, range) : 0);
}

void event_condition(uint64_t *random, struct step *step, struct range range)
{
	uint8_t condition = (uint8_t)(POWER_ON + random_below(random, 3));

	event_write(step, CONDITION, condition == NEXUS_LOSS ? random_nexus(random, range) : 0, condition, 0, 0);
}

static uint8_t any_attribute(uint64_t *random)
{
	return (uint8_t)random_below(random, random_percent(random, 90) ? 5 : 256);
}

void event_any(uint64_t *random, const uint8_t *table, struct step *step, struct range range)
{
	switch (random_below(random, 5)) {
	case 0:
		event_command(random, step, range, any_attribute(random), 50);
		break;
	case 1:
		event_completion(random, table, step, range, random_status(random, 50));
		break;
	case 2:
		event_abort_task(random, table, step, range);
		break;
	case 3:
		event_management(random, step, range);
		break;
	default:
		event_condition(random, step, range);
	}
}
