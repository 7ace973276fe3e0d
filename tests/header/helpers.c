/* What the header's functions make and read, held to records written out by hand. Compiled as C11 and as C++17. */
#include <stdio.h>
#include <stdlib.h>
#include <string.h>

#include "../usage.h"
#include "dedakhumi.h"

static unsigned held;

static void hold(bool right, const char *what)
{
	if (!right) {
		fprintf(stderr, "header: %s\n", what);
		exit(1);
	}
	held++;
}

static void hold_event(struct dedakhumi_event event, const uint8_t *expected, const char *what)
{
	hold(memcmp(event.bytes, expected, sizeof event.bytes) == 0, what);
}

static void hold_events(void)
{
	static const uint8_t command[] = {0x54, 0x56, 0x01, 0x02, 0x00, 0x00, 0x00, 0x07};
	static const uint8_t ordered[] = {0x54, 0x56, 0x01, 0x07, 0x02, 0x03, 0xFF, 0xFE};
	static const uint8_t good[] = {0x54, 0x56, 0x02, 0x02, 0x00, 0x00, 0x00, 0x07};
	static const uint8_t failed[] = {0x54, 0x56, 0x02, 0x03, 0x02, 0x00, 0x12, 0x34};
	static const uint8_t busy[] = {0x54, 0x56, 0x02, 0x00, 0x08, 0x00, 0xFF, 0x00};
	static const uint8_t conflict[] = {0x54, 0x56, 0x02, 0x07, 0x18, 0x00, 0x00, 0xFF};
	static const uint8_t abort_task[] = {0x54, 0x56, 0x03, 0x04, 0x01, 0x00, 0x01, 0x00};
	static const uint8_t clear_aca[] = {0x54, 0x56, 0x03, 0x05, 0x04, 0x00, 0x00, 0x00};
	static const uint8_t nexus_loss[] = {0x54, 0x56, 0x04, 0x06, 0x03, 0x00, 0x00, 0x00};
	static const uint8_t hard_reset[] = {0x54, 0x56, 0x04, 0x00, 0x02, 0x00, 0x00, 0x00};
	static const uint8_t any[] = {0x54, 0x56, 0xFF, 0xFE, 0xFD, 0xFC, 0xFB, 0xFA};
	hold_event(dedakhumi_command_event(2, 7, DEDAKHUMI_ATTRIBUTE_SIMPLE, 0), command, "a command");
	hold_event(dedakhumi_command_event(7, 0xFFFE, DEDAKHUMI_ATTRIBUTE_ORDERED, DEDAKHUMI_CONTROL_NACA | DEDAKHUMI_CONTROL_EXEMPT), ordered,
		"a command with all its fields");
	hold_event(dedakhumi_completion_event(2, 7, DEDAKHUMI_STATUS_GOOD), good, "a completion");
	hold_event(dedakhumi_completion_event(3, 0x1234, DEDAKHUMI_STATUS_CHECK_CONDITION), failed, "a completion with CHECK CONDITION");
	hold_event(dedakhumi_completion_event(0, 0xFF00, DEDAKHUMI_STATUS_BUSY), busy, "a completion with BUSY");
	hold_event(dedakhumi_completion_event(7, 0x00FF, DEDAKHUMI_STATUS_RESERVATION_CONFLICT), conflict, "a completion with RESERVATION CONFLICT");
	hold_event(dedakhumi_abort_task_event(4, 0x0100), abort_task, "ABORT TASK");
	hold_event(dedakhumi_function_event(5, DEDAKHUMI_FUNCTION_CLEAR_ACA), clear_aca, "CLEAR ACA");
	hold_event(dedakhumi_nexus_loss_event(6), nexus_loss, "a nexus loss");
	hold_event(dedakhumi_reset_event(DEDAKHUMI_CONDITION_HARD_RESET), hard_reset, "a hard reset");
	hold_event(dedakhumi_event_of(0xFF, 0xFE, 0xFD, 0xFC, 0xFBFA), any, "an event of any fields");
}

static void hold_fields(void)
{
	static const uint8_t event[] = {0x54, 0x56, 0x01, 0x07, 0x02, 0x03, 0xFF, 0xFE};
	struct dedakhumi_fields fields = dedakhumi_fields_of(event);
	hold(fields.kind == DEDAKHUMI_KIND_COMMAND && fields.nexus == 7, "the kind and nexus of an event");
	hold(fields.first == DEDAKHUMI_ATTRIBUTE_ORDERED && fields.second == 3 && fields.tag == 0xFFFE, "the other fields of an event");
}

static void hold_records(void)
{
	static const uint8_t task_record[] = {0x54, 0x54, 0x05, 0x01, 0x03, 0x01, 0xAB, 0xCD};
	static const uint8_t ended_record[] = {0x54, 0x45, 0x06, 0x40, 0x00, 0x00, 0x80, 0x01};
	static uint8_t table[DEDAKHUMI_TABLE_LENGTH], report[DEDAKHUMI_REPORT_LENGTH];
	table[4] = 2;
	table[6] = 3;
	table[8 + 8 * 7 + 3] = 0x1F;
	memcpy(table + 80, task_record, sizeof task_record);
	memcpy(report + 8, ended_record, sizeof ended_record);
	struct dedakhumi_task task = dedakhumi_task_at(table, 1);
	hold(task.nexus == 5 && task.attribute == DEDAKHUMI_ATTRIBUTE_HEAD_OF_QUEUE && task.state == DEDAKHUMI_STATE_BLOCKED, "a task's first fields");
	hold(task.control == DEDAKHUMI_CONTROL_NACA && task.tag == 0xABCD, "a task's last fields");
	struct dedakhumi_ended ended = dedakhumi_ended_at(report, 1);
	hold(ended.nexus == 6 && ended.status == DEDAKHUMI_STATUS_TASK_ABORTED && ended.tag == 0x8001, "an ended record");
	hold(dedakhumi_task_count(table) == 2, "a task count");
	hold(dedakhumi_run_of(table) == 3 && dedakhumi_pending_of(table, 7) == 0x1F, "run and pending bits");
	hold(dedakhumi_faulted_nexus(table) == 8, "no faulted nexus");
	table[5] = 8;
	hold(dedakhumi_faulted_nexus(table) == 7, "the faulted nexus 7");
	table[4] = 65;
	hold(dedakhumi_task_count(table) == 64, "the task count of a damaged table");
}

int main(int argument_count, char **arguments)
{
	(void)arguments;
	take_no_argument("header", argument_count);
	hold_events();
	hold_fields();
	hold_records();
	printf("header: %u records made and read as they are written out\n", held);
	return 0;
}
