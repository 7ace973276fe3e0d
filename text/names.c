#include "names.h"

const char *name_in(const struct name *names, uint8_t number)
{
	while (names->name != NULL && names->number != number)
		names++;
	return names->name != NULL ? names->name : "unknown";
}

const char *answer_name(uint8_t answer)
{
	static const struct name names[] = {{DEDAKHUMI_DONE, "done"}, {DEDAKHUMI_BAD_TABLE, "bad table"}, {DEDAKHUMI_BAD_REPORT, "bad report"},
		{DEDAKHUMI_BAD_EVENT, "bad event"}, {DEDAKHUMI_NEXUS_ABOVE_SEVEN, "nexus above 7"}, {DEDAKHUMI_NO_SUCH_TASK, "no such task"},
		{DEDAKHUMI_NOT_ENABLED, "not enabled"}, {DEDAKHUMI_ENDED_AT_ENTRY, "ended at entry"}, {DEDAKHUMI_REJECTED, "rejected"},
		{DEDAKHUMI_BAD_POLICY, "bad policy"}, {0, NULL}};
	return name_in(names, answer);
}

const char *attribute_name(uint8_t attribute)
{
	static const struct name names[] = {{DEDAKHUMI_ATTRIBUTE_SIMPLE, "SIMPLE"}, {DEDAKHUMI_ATTRIBUTE_HEAD_OF_QUEUE, "HEAD OF QUEUE"},
		{DEDAKHUMI_ATTRIBUTE_ORDERED, "ORDERED"}, {DEDAKHUMI_ATTRIBUTE_ACA, "ACA"}, {0, NULL}};
	return name_in(names, attribute);
}

const char *state_name(uint8_t state)
{
	static const struct name names[] = {
		{DEDAKHUMI_STATE_DORMANT, "dormant"}, {DEDAKHUMI_STATE_ENABLED, "enabled"}, {DEDAKHUMI_STATE_BLOCKED, "blocked"}, {0, NULL}};
	return name_in(names, state);
}

const char *status_name(uint8_t status)
{
	static const struct name names[] = {{DEDAKHUMI_STATUS_GOOD, "GOOD"}, {DEDAKHUMI_STATUS_CHECK_CONDITION, "CHECK CONDITION"},
		{DEDAKHUMI_STATUS_BUSY, "BUSY"}, {DEDAKHUMI_STATUS_RESERVATION_CONFLICT, "RESERVATION CONFLICT"},
		{DEDAKHUMI_STATUS_TASK_SET_FULL, "TASK SET FULL"}, {DEDAKHUMI_STATUS_ACA_ACTIVE, "ACA ACTIVE"},
		{DEDAKHUMI_STATUS_TASK_ABORTED, "TASK ABORTED"}, {DEDAKHUMI_STATUS_NONE, "FFh"}, {0, NULL}};
	return name_in(names, status);
}

const char *function_name(uint8_t function)
{
	static const struct name names[] = {{DEDAKHUMI_FUNCTION_ABORT_TASK, "ABORT TASK"}, {DEDAKHUMI_FUNCTION_ABORT_TASK_SET, "ABORT TASK SET"},
		{DEDAKHUMI_FUNCTION_CLEAR_TASK_SET, "CLEAR TASK SET"}, {DEDAKHUMI_FUNCTION_CLEAR_ACA, "CLEAR ACA"},
		{DEDAKHUMI_FUNCTION_LOGICAL_UNIT_RESET, "LOGICAL UNIT RESET"}, {0, NULL}};
	return name_in(names, function);
}

const char *condition_name(uint8_t condition)
{
	static const struct name names[] = {{DEDAKHUMI_CONDITION_POWER_ON, "power on"}, {DEDAKHUMI_CONDITION_HARD_RESET, "hard reset"},
		{DEDAKHUMI_CONDITION_NEXUS_LOSS, "nexus loss"}, {0, NULL}};
	return name_in(names, condition);
}

static void add_command(struct text *text, const struct dedakhumi_fields *command)
{
	text_add(text, "%u.%u %s", command->nexus, command->tag, attribute_name(command->first));
	if (command->second & DEDAKHUMI_CONTROL_NACA)
		text_add(text, " NACA");
	if (command->second & DEDAKHUMI_CONTROL_EXEMPT)
		text_add(text, " exempt");
}

static void add_condition(struct text *text, const struct dedakhumi_fields *condition)
{
	text_add(text, "%s", condition_name(condition->first));
	if (condition->first == DEDAKHUMI_CONDITION_NEXUS_LOSS)
		text_add(text, " of %u", condition->nexus);
}

static void add_function(struct text *text, const struct dedakhumi_fields *function)
{
	text_add(text, "%u asks %s", function->nexus, function_name(function->first));
	if (function->first == DEDAKHUMI_FUNCTION_ABORT_TASK)
		text_add(text, " %u.%u", function->nexus, function->tag);
}

void add_event(struct text *text, const struct dedakhumi_event *event)
{
	struct dedakhumi_fields fields = dedakhumi_fields_of(event->bytes);
	switch (fields.kind) {
	case DEDAKHUMI_KIND_COMMAND:
		add_command(text, &fields);
		break;
	case DEDAKHUMI_KIND_COMPLETION:
		text_add(text, "%u.%u ends %s", fields.nexus, fields.tag, status_name(fields.first));
		break;
	case DEDAKHUMI_KIND_MANAGEMENT:
		add_function(text, &fields);
		break;
	case DEDAKHUMI_KIND_CONDITION:
		add_condition(text, &fields);
		break;
	default:
		text_add(text, "kind %u", fields.kind);
	}
}
