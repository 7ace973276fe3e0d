/* A task's command, or its end. */
#include "names.h"
#include "parts.h"

static bool take_end(struct reading *reading)
{
	static const struct name ends[] = {{DEDAKHUMI_STATUS_GOOD, "ends"}, {DEDAKHUMI_STATUS_GOOD, "GOOD"},
		{DEDAKHUMI_STATUS_CHECK_CONDITION, "fails"}, {DEDAKHUMI_STATUS_CHECK_CONDITION, "CHECK CONDITION"},
		{DEDAKHUMI_STATUS_BUSY, "BUSY"}, {DEDAKHUMI_STATUS_RESERVATION_CONFLICT, "conflict"},
		{DEDAKHUMI_STATUS_RESERVATION_CONFLICT, "RESERVATION CONFLICT"}, {0, NULL}};
	if (reading->fields.kind == DEDAKHUMI_KIND_COMMAND || !take_name(&reading->rest, ends, &reading->fields.first))
		return false;
	reading->fields.kind = DEDAKHUMI_KIND_COMPLETION;
	return true;
}

/* In any order, each of them once. */
static void take_controls(struct reading *reading)
{
	static const struct name controls[] = {{DEDAKHUMI_CONTROL_NACA, "naca"}, {DEDAKHUMI_CONTROL_EXEMPT, "exempt"}, {0, NULL}};
	const char *before = reading->rest;
	uint8_t control;
	while (take_name(&reading->rest, controls, &control) && (reading->fields.second & control) == 0) {
		reading->fields.second |= control;
		before = reading->rest;
	}
	reading->rest = before;
}

static bool take_attribute(struct reading *reading)
{
	static const struct name attributes[] = {{DEDAKHUMI_ATTRIBUTE_SIMPLE, "S"}, {DEDAKHUMI_ATTRIBUTE_SIMPLE, "SIMPLE"},
		{DEDAKHUMI_ATTRIBUTE_HEAD_OF_QUEUE, "H"}, {DEDAKHUMI_ATTRIBUTE_HEAD_OF_QUEUE, "HEAD OF QUEUE"},
		{DEDAKHUMI_ATTRIBUTE_ORDERED, "O"}, {DEDAKHUMI_ATTRIBUTE_ORDERED, "ORDERED"}, {DEDAKHUMI_ATTRIBUTE_ACA, "A"},
		{DEDAKHUMI_ATTRIBUTE_ACA, "ACA"}, {0, NULL}};
	if (reading->fields.kind == DEDAKHUMI_KIND_COMPLETION || !take_name(&reading->rest, attributes, &reading->fields.first))
		return false;
	reading->fields.kind = DEDAKHUMI_KIND_COMMAND;
	take_controls(reading);
	return true;
}

#define RIGHT_COMMAND "S, H, O or A, and behind it naca or exempt or both (without commas)"
#define RIGHT_END "ends, fails, busy or conflict"

/* What may stand behind the task, by the kind that the line's opening gave. */
static const char *right_of(uint8_t kind)
{
	switch (kind) {
	case DEDAKHUMI_KIND_COMMAND:
		return RIGHT_COMMAND;
	case DEDAKHUMI_KIND_COMPLETION:
		return RIGHT_END;
	default:
		return RIGHT_COMMAND "; or " RIGHT_END;
	}
}

bool read_task_event(struct reading *reading)
{
	if (reading->fields.kind == 0)
		reading->right = "0.1 S, 0.1 ends, 0.1 fails, 0.1 busy, 0.1 conflict";
	if (!read_task(reading))
		return false;
	reading->right = right_of(reading->fields.kind);
	if (take_attribute(reading) || take_end(reading))
		return true;
	return is_no(reading, next_word(&reading->rest), reading->fields.kind == DEDAKHUMI_KIND_COMPLETION ? "end" : "attribute");
}
