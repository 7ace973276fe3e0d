#include "samples.h"

struct row {
	const char *name;
	uint8_t kind, nexus, first, second;
	dedakhumi_tag tag;
	enum answer refusal;
	uint8_t mark_change[MARK_LENGTH];
};

/* Tasks 0.1, 1.1 and 0.3 are in some of the tables. */
static const struct row rows[] = {
	{"COMMAND SIMPLE 2.7", COMMAND, 2, SIMPLE, 0, 7, DONE, {0, 0}},
	{"COMMAND HEAD OF QUEUE 7.9", COMMAND, 7, HEAD_OF_QUEUE, 0, 9, DONE, {0, 0}},
	{"COMMAND ORDERED with NACA 3.FFFFh", COMMAND, 3, ORDERED, CONTROL_NACA, 0xFFFF, DONE, {0, 0}},
	{"COMMAND ACA 0.9", COMMAND, 0, ACA, 0, 9, DONE, {0, 0}},
	{"exempt COMMAND 2.7", COMMAND, 2, SIMPLE, COMMAND_EXEMPT, 7, DONE, {0, 0}},
	{"COMMAND with attribute 3", COMMAND, 2, 3, COMMAND_EXEMPT, 7, DONE, {0, 0}},
	{"COMMAND with attribute FFh", COMMAND, 2, 0xFF, COMMAND_EXEMPT, 7, DONE, {0, 0}},
	{"COMMAND with attribute 3 and NACA", COMMAND, 2, 3, COMMAND_EXEMPT | CONTROL_NACA, 7, DONE, {0, 0}},
	{"COMMAND 0.1, overlapped where it is there", COMMAND, 0, SIMPLE, COMMAND_EXEMPT, 1, DONE, {0, 0}},
	{"COMMAND 0.1 with NACA, overlapped where it is there", COMMAND, 0, SIMPLE, CONTROL_NACA, 1, DONE, {0, 0}},
	{"COMMAND 7.63, overlapped where it is there", COMMAND, 7, SIMPLE, COMMAND_EXEMPT, 63, DONE, {0, 0}},
	{"GOOD 0.1", COMPLETION, 0, STATUS_GOOD, 0, 1, DONE, {0, 0}},
	{"GOOD 1.1", COMPLETION, 1, STATUS_GOOD, 0, 1, DONE, {0, 0}},
	{"GOOD 0.3", COMPLETION, 0, STATUS_GOOD, 0, 3, DONE, {0, 0}},
	{"GOOD 7.63", COMPLETION, 7, STATUS_GOOD, 0, 63, DONE, {0, 0}},
	{"CHECK CONDITION 0.1", COMPLETION, 0, STATUS_CHECK_CONDITION, 0, 1, DONE, {0, 0}},
	{"CHECK CONDITION 0.3", COMPLETION, 0, STATUS_CHECK_CONDITION, 0, 3, DONE, {0, 0}},
	{"BUSY 0.1", COMPLETION, 0, STATUS_BUSY, 0, 1, DONE, {0, 0}},
	{"RESERVATION CONFLICT 0.3", COMPLETION, 0, STATUS_RESERVATION_CONFLICT, 0, 3, DONE, {0, 0}},
	{"RESERVATION CONFLICT 7.63", COMPLETION, 7, STATUS_RESERVATION_CONFLICT, 0, 63, DONE, {0, 0}},
	{"GOOD of an absent task", COMPLETION, 5, STATUS_GOOD, 0, 0xEEEE, DONE, {0, 0}},
	{"ABORT TASK 0.1", MANAGEMENT, 0, ABORT_TASK, 0, 1, DONE, {0, 0}},
	{"ABORT TASK of an absent task", MANAGEMENT, 5, ABORT_TASK, 0, 0xEEEE, DONE, {0, 0}},
	{"ABORT TASK SET from 0", MANAGEMENT, 0, ABORT_TASK_SET, 0, 0, DONE, {0, 0}},
	{"CLEAR TASK SET from 0", MANAGEMENT, 0, CLEAR_TASK_SET, 0, 0, DONE, {0, 0}},
	{"CLEAR ACA from 0", MANAGEMENT, 0, CLEAR_ACA, 0, 0, DONE, {0, 0}},
	{"CLEAR ACA from 1", MANAGEMENT, 1, CLEAR_ACA, 0, 0, DONE, {0, 0}},
	{"LOGICAL UNIT RESET", MANAGEMENT, 6, LOGICAL_UNIT_RESET, 0, 0, DONE, {0, 0}},
	{"unknown function 0", MANAGEMENT, 0, 0, 0, 0, DONE, {0, 0}},
	{"unknown function FFh", MANAGEMENT, 0, 0xFF, 0, 0, DONE, {0, 0}},
	{"power on", CONDITION, 0, POWER_ON, 0, 0, DONE, {0, 0}},
	{"hard reset", CONDITION, 0, HARD_RESET, 0, 0, DONE, {0, 0}},
	{"nexus loss 0", CONDITION, 0, NEXUS_LOSS, 0, 0, DONE, {0, 0}},
	{"nexus loss 7", CONDITION, 7, NEXUS_LOSS, 0, 0, DONE, {0, 0}},
	{"event with first mark byte wrong", COMMAND, 2, SIMPLE, 0, 7, BAD_EVENT, {1, 0}},
	{"event with second mark byte wrong", COMMAND, 2, SIMPLE, 0, 7, BAD_EVENT, {0, 1}},
	{"event of kind 0", 0, 2, 0, 0, 7, BAD_EVENT, {0, 0}},
	{"event of kind 5", 5, 2, 0, 0, 7, BAD_EVENT, {0, 0}},
	{"COMMAND with bit 2 of second", COMMAND, 2, SIMPLE, 4, 7, BAD_EVENT, {0, 0}},
	{"COMPLETION with status 28h", COMPLETION, 0, STATUS_TASK_SET_FULL, 0, 1, BAD_EVENT, {0, 0}},
	{"COMPLETION with status 10h", COMPLETION, 0, 0x10, 0, 1, BAD_EVENT, {0, 0}},
	{"BUSY with a second byte", COMPLETION, 0, STATUS_BUSY, 1, 1, BAD_EVENT, {0, 0}},
	{"ABORT TASK SET with a tag", MANAGEMENT, 0, ABORT_TASK_SET, 0, 1, BAD_EVENT, {0, 0}},
	{"power on with a nexus", CONDITION, 1, POWER_ON, 0, 0, BAD_EVENT, {0, 0}},
	{"hard reset with nexus FFh", CONDITION, 0xFF, HARD_RESET, 0, 0, BAD_EVENT, {0, 0}},
	{"bad event with nexus 8", 9, NEXUS_COUNT, 0, 0, 0, BAD_EVENT, {0, 0}},
	{"COMMAND of nexus 8", COMMAND, NEXUS_COUNT, SIMPLE, 0, 7, NEXUS_ABOVE_SEVEN, {0, 0}},
	{"BUSY of nexus 8", COMPLETION, NEXUS_COUNT, STATUS_BUSY, 0, 1, NEXUS_ABOVE_SEVEN, {0, 0}},
	{"COMPLETION of nexus 64", COMPLETION, 64, STATUS_GOOD, 0, 1, NEXUS_ABOVE_SEVEN, {0, 0}},
	{"LOGICAL UNIT RESET of nexus FFh", MANAGEMENT, 0xFF, LOGICAL_UNIT_RESET, 0, 0, NEXUS_ABOVE_SEVEN, {0, 0}},
	{"nexus loss of nexus 8", CONDITION, NEXUS_COUNT, NEXUS_LOSS, 0, 0, NEXUS_ABOVE_SEVEN, {0, 0}},
};

const size_t sample_event_count = sizeof rows / sizeof rows[0];

struct sample_event sample_event(size_t index)
{
	const struct row *row = &rows[index];
	struct sample_event sample = {row->name, dedakhumi_event_of(row->kind, row->nexus, row->first, row->second, row->tag), row->refusal};
	for (size_t i = 0; i < MARK_LENGTH; i++)
		sample.event.bytes[i] ^= row->mark_change[i];
	return sample;
}
