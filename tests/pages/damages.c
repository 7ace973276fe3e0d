/* Tables that are not well formed (RULES 17.3). */
#include "samples.h"

struct change {
	size_t offset;
	uint8_t byte;
};

/* The second change is none if its offset is 0. */
struct damage {
	const char *name;
	size_t table;
	struct change changes[2];
};

/* nexus_offset and task_offset, for a list that is constant. */
#define NEXUS(number) (NEXUS_RECORDS + (number) * NEXUS_LENGTH)
#define TASK(place) (TASK_RECORDS + (place) * TASK_LENGTH)

enum { LAST_NEXUS = NEXUS(NEXUS_COUNT - 1), LAST_TASK = TASK(TASK_LIMIT - 1), TASK_TAG_END = TASK_LENGTH - 1 };

static const struct damage damages[] = {
	{"first header mark byte", EMPTY, {{0, 0x55}}},
	{"second header mark byte", EMPTY, {{1, 0x49}}},
	{"header version 0", EMPTY, {{HEADER_FORM, 0}}},
	{"QERR 10b", EMPTY, {{HEADER_POLICY, QERR_BAD}}},
	{"policy bit 3", EMPTY, {{HEADER_POLICY, 1 << 3}}},
	{"count 1 in an empty table", EMPTY, {{HEADER_COUNT, 1}}},
	{"count 65 in a full table", FULL, {{HEADER_COUNT, TASK_LIMIT + 1}}},
	{"count 128 in a full table", FULL, {{HEADER_COUNT, 128}}},
	{"count 255 in a full table", FULL, {{HEADER_COUNT, 255}}},
	{"count 63 in a full table", FULL, {{HEADER_COUNT, TASK_LIMIT - 1}}},
	{"ACA byte 9", EMPTY, {{HEADER_ACA, NEXUS_COUNT + 1}}},
	{"ACA byte 255", EMPTY, {{HEADER_ACA, 255}}},
	{"run 5", EMPTY, {{HEADER_RUN, RUN_LIMIT + 1}}},
	{"header's last byte", EMPTY, {{HEADER_LAST, 1}}},
	{"mark of nexus 0", EMPTY, {{NEXUS(0), 0}}},
	{"number of nexus 7", EMPTY, {{LAST_NEXUS + NEXUS_NUMBER, 6}}},
	{"pending bit 5", EMPTY, {{NEXUS(0) + NEXUS_PENDING, 0x20}}},
	{"last byte of nexus 7", EMPTY, {{LAST_NEXUS + NEXUS_LENGTH - 1, 1}}},
	{"mark of the first task", CASE_B, {{TASK(0) + 1, 0}}},
	{"task of nexus 8", CASE_B, {{TASK(0) + TASK_NEXUS, NEXUS_COUNT}}},
	{"task of nexus 255", CASE_B, {{TASK(0) + TASK_NEXUS, 255}}},
	{"attribute 3", CASE_B, {{TASK(0) + TASK_ATTRIBUTE, 3}}},
	{"attribute ACA without ACA", CASE_B, {{TASK(0) + TASK_ATTRIBUTE, ACA}}},
	{"state 0", CASE_B, {{TASK(0) + TASK_STATE, 0}}},
	{"state 4", CASE_B, {{TASK(0) + TASK_STATE, 4}}},
	{"an eligible task dormant", CASE_B, {{TASK(0) + TASK_STATE, DORMANT}}},
	{"a task blocked without ACA", CASE_B, {{TASK(0) + TASK_STATE, BLOCKED}}},
	{"a task enabled that is not eligible", CASE_B, {{TASK(1) + TASK_STATE, ENABLED}}},
	{"control bit 1", CASE_B, {{TASK(0) + TASK_CONTROL, 2}}},
	{"two tasks 0.1", CASE_B, {{TASK(2) + TASK_TAG_END, 1}}},
	{"the last two tasks alike", FULL, {{LAST_TASK + TASK_NEXUS, NEXUS_COUNT - 2}, {LAST_TASK + TASK_TAG_END, TASK_LIMIT - 2}}},
	{"the last task's state", FULL, {{LAST_TASK + TASK_STATE, DORMANT}}},
	{"the last task's control", FULL, {{LAST_TASK + TASK_CONTROL, 0x80}}},
	{"first unused record", CASE_B, {{TASK(3) + TASK_TAG_END, 1}}},
	{"last byte of the table", EMPTY, {{TABLE_LENGTH - 1, 1}}},
	{"a task enabled in an ACA", ACA_ALONE, {{TASK(0) + TASK_STATE, ENABLED}}},
	{"a blocked task that is not eligible", ACA_ALONE, {{TASK(1) + TASK_STATE, BLOCKED}}},
	{"a HEAD OF QUEUE task dormant in an ACA", ACA_ALONE, {{TASK(1) + TASK_ATTRIBUTE, HEAD_OF_QUEUE}}},
	{"the ACA task of another nexus", ACA_AND_TASK, {{TASK(2) + TASK_NEXUS, 1}, {TASK(2) + TASK_TAG_END, 9}}},
	{"the ACA task blocked", ACA_AND_TASK, {{TASK(2) + TASK_STATE, BLOCKED}}},
	{"two ACA tasks", ACA_AND_TASK, {{TASK(1) + TASK_ATTRIBUTE, ACA}, {TASK(1) + TASK_STATE, ENABLED}}},
};

const size_t sample_damage_count = sizeof damages / sizeof damages[0];

void sample_bad_table(size_t index, struct sample_table *table)
{
	const struct damage *damage = &damages[index];
	sample_good_table(damage->table, table);
	table->name = damage->name;
	table->bytes[damage->changes[0].offset] = damage->changes[0].byte;
	if (damage->changes[1].offset != 0)
		table->bytes[damage->changes[1].offset] = damage->changes[1].byte;
}
