#include "samples.h"

struct sketch_task {
	uint8_t nexus, attribute, state, control;
	tag_number tag;
};

/* First the crowd, all of one attribute and state (task i is of nexus i % NEXUS_COUNT with tag i), then the listed tasks. */
struct sketch {
	const char *name;
	uint8_t policy, aca, run, pending, crowd, crowd_attribute, crowd_state, listed;
	struct sketch_task tasks[5];
};

static const struct sketch sketches[] = {
	[EMPTY] = {.name = "empty table"},
	{.name = "fresh table", .pending = 1},
	{.name = "table with every pending bit", .pending = 0x1F, .policy = 7, .run = 4},
	{.name = "one task", .listed = 1, .tasks = {{0, SIMPLE, ENABLED, 1, 1}}},
	[CASE_B] = {.name = "case B's table",
	 .listed = 3,
	 .tasks = {{0, SIMPLE, ENABLED, 0, 1}, {1, ORDERED, DORMANT, 0, 1}, {0, SIMPLE, DORMANT, 0, 2}}},
	{.name = "case C's table",
	 .run = 4,
	 .listed = 3,
	 .tasks = {{0, SIMPLE, ENABLED, 0, 1}, {1, HEAD_OF_QUEUE, ENABLED, 0, 1}, {0, SIMPLE, DORMANT, 0, 2}}},
	{.name = "table with 63 tasks", .crowd = TASK_LIMIT - 1, .crowd_state = ENABLED},
	[FULL] = {.name = "full table", .crowd = TASK_LIMIT, .crowd_state = ENABLED},
	{.name = "full table with QERR 01b", .policy = 1, .crowd = TASK_LIMIT, .crowd_state = ENABLED},
	{.name = "full table with QERR 11b and TAS", .policy = 7, .crowd = TASK_LIMIT, .crowd_state = ENABLED},
	{.name = "full table of HEAD OF QUEUE tasks", .policy = 5, .run = 3, .crowd = TASK_LIMIT, .crowd_attribute = HEAD_OF_QUEUE, .crowd_state = ENABLED},
	[ACA_ALONE] = {.name = "ACA without its task", .aca = 1, .listed = 2, .tasks = {{1, SIMPLE, BLOCKED, 0, 1}, {0, ORDERED, DORMANT, 1, 1}}},
	[ACA_AND_TASK] = {.name = "ACA with its task",
	 .aca = 1,
	 .policy = 1,
	 .listed = 3,
	 .tasks = {{1, SIMPLE, BLOCKED, 0, 1}, {0, ORDERED, DORMANT, 1, 1}, {0, ACA, ENABLED, 1, 3}}},
	{.name = "ACA with its task, not NACA",
	 .aca = 1,
	 .listed = 2,
	 .tasks = {{1, SIMPLE, BLOCKED, 0, 1}, {0, ACA, ENABLED, 0, 3}}},
	{.name = "full table with ACA", .aca = NEXUS_COUNT, .crowd = TASK_LIMIT, .crowd_state = BLOCKED},
	{.name = "full table with ACA and its task",
	 .aca = 1,
	 .crowd = TASK_LIMIT - 1,
	 .crowd_state = BLOCKED,
	 .listed = 1,
	 .tasks = {{0, ACA, ENABLED, 0, 3000}}},
};

const size_t sample_table_count = sizeof sketches / sizeof sketches[0];

static void put_task(uint8_t *table, size_t index, struct sketch_task task)
{
	uint8_t record[TASK_LENGTH] = {0x54, 0x54, task.nexus, task.attribute, task.state, task.control, TAG_BYTES(task.tag)};
	memcpy(table + task_offset(index), record, sizeof record);
}

static void put_empty(uint8_t *table, const struct sketch *sketch)
{
	uint8_t header[HEADER_LENGTH] = {0x54, 0x48, 1, sketch->policy, sketch->crowd + sketch->listed, sketch->aca, sketch->run};
	memcpy(table, header, sizeof header);
	for (uint8_t nexus = 0; nexus < NEXUS_COUNT; nexus++) {
		uint8_t record[NEXUS_LENGTH] = {0x54, 0x4E, nexus, sketch->pending};
		memcpy(table + nexus_offset(nexus), record, sizeof record);
	}
	for (size_t index = 0; index < TASK_LIMIT; index++)
		write_unused(table + task_offset(index));
}

void sample_good_table(size_t index, struct sample_table *table)
{
	const struct sketch *sketch = &sketches[index];
	table->name = sketch->name;
	put_empty(table->bytes, sketch);
	for (uint8_t i = 0; i < sketch->crowd; i++)
		put_task(table->bytes, i, (struct sketch_task){i % NEXUS_COUNT, sketch->crowd_attribute, sketch->crowd_state, 0, i});
	for (uint8_t i = 0; i < sketch->listed; i++)
		put_task(table->bytes, sketch->crowd + i, sketch->tasks[i]);
}
