/* Which field makes 8 bytes a bad event: the fields as RULES 16 lists them, one after the other. */
#include <stdbool.h>
#include <stdio.h>

#include "happening.h"

static bool wrong_kind(const struct dedakhumi_fields *event)
{
	return event->kind < DEDAKHUMI_KIND_COMMAND || event->kind > DEDAKHUMI_KIND_CONDITION;
}

static bool wrong_status(const struct dedakhumi_fields *event)
{
	return event->kind == DEDAKHUMI_KIND_COMPLETION && event->first != DEDAKHUMI_STATUS_GOOD &&
		event->first != DEDAKHUMI_STATUS_CHECK_CONDITION && event->first != DEDAKHUMI_STATUS_BUSY &&
		event->first != DEDAKHUMI_STATUS_RESERVATION_CONFLICT;
}

static bool wrong_condition(const struct dedakhumi_fields *event)
{
	return event->kind == DEDAKHUMI_KIND_CONDITION &&
		(event->first < DEDAKHUMI_CONDITION_POWER_ON || event->first > DEDAKHUMI_CONDITION_NEXUS_LOSS);
}

static bool wrong_control(const struct dedakhumi_fields *event)
{
	return event->kind == DEDAKHUMI_KIND_COMMAND && (event->second & ~(DEDAKHUMI_CONTROL_NACA | DEDAKHUMI_CONTROL_EXEMPT)) != 0;
}

static bool wrong_second(const struct dedakhumi_fields *event)
{
	return event->kind != DEDAKHUMI_KIND_COMMAND && event->second != 0;
}

/* ABORT TASK has one, and an unknown function may have one. */
static bool wrong_tag(const struct dedakhumi_fields *event)
{
	bool without = event->kind == DEDAKHUMI_KIND_CONDITION ||
		(event->kind == DEDAKHUMI_KIND_MANAGEMENT && event->first > DEDAKHUMI_FUNCTION_ABORT_TASK &&
			event->first <= DEDAKHUMI_FUNCTION_LOGICAL_UNIT_RESET);
	return without && event->tag != 0;
}

static bool wrong_nexus(const struct dedakhumi_fields *event)
{
	return event->kind == DEDAKHUMI_KIND_CONDITION && event->first != DEDAKHUMI_CONDITION_NEXUS_LOSS && event->nexus != 0;
}

static const struct field {
	bool (*wrong)(const struct dedakhumi_fields *event);
	uint8_t place, length;
	const char *name, *right;
} fields[] = {
	{wrong_kind, DEDAKHUMI_AT_EVENT_KIND, 1, "kind", "01 COMMAND, 02 COMPLETION, 03 MANAGEMENT or 04 CONDITION"},
	{wrong_status, DEDAKHUMI_AT_EVENT_FIRST, 1, "status", "00 GOOD, 02 CHECK CONDITION, 08 BUSY or 18 RESERVATION CONFLICT"},
	{wrong_condition, DEDAKHUMI_AT_EVENT_FIRST, 1, "condition", "01 power on, 02 hard reset or 03 nexus loss"},
	{wrong_control, DEDAKHUMI_AT_EVENT_SECOND, 1, "control", "00, or 01 naca, 02 exempt, 03 both"},
	{wrong_second, DEDAKHUMI_AT_EVENT_SECOND, 1, "second field", "0"},
	{wrong_tag, DEDAKHUMI_AT_EVENT_TAG, sizeof(dedakhumi_tag), "tag", "0"},
	{wrong_nexus, DEDAKHUMI_AT_EVENT_NEXUS, 1, "nexus", "0"},
};
enum { FIELDS = sizeof fields / sizeof fields[0] };

static void show_field(const uint8_t *record, const struct field *field)
{
	unsigned first = field->place, last = first + field->length - 1;
	printf(": the %s (byte", field->name);
	if (last != first)
		printf("s %u to", first);
	printf(" %u) is", last);
	for (unsigned i = first; i <= last; i++)
		printf(" %02X", record[i]);
	printf(", and has to be %s", field->right);
}

/* Without the mark it is no record of any kind, and is not asked for more. */
void show_wrong_field(const uint8_t *record)
{
	static const struct field mark = {NULL, 0, DEDAKHUMI_AT_EVENT_KIND, "mark", "54 56"};
	struct dedakhumi_fields event = dedakhumi_fields_of(record);
	const struct field *field = fields;
	while (field < fields + FIELDS && !field->wrong(&event))
		field++;
	if (record[0] != DEDAKHUMI_MARK_FIRST || record[1] != DEDAKHUMI_MARK_EVENT)
		show_field(record, &mark);
	else if (field < fields + FIELDS)
		show_field(record, field);
	else
		printf(": these %d bytes are none", DEDAKHUMI_EVENT_LENGTH);
}
