#include "tables.h"
#include "random.h"

uint8_t good_policy(unsigned number)
{
	static const uint8_t policies[GOOD_POLICIES] = { 0x00, 0x01, 0x03, 0x04, 0x05, 0x07 };

	return policies[number % GOOD_POLICIES];
}

struct record table_record(size_t number)
{
	if (number == 0)
		return (struct record){ 0, HEADER_LENGTH };
	if (number <= NEXUS_COUNT)
		return (struct record){ nexus_offset(number - 1), NEXUS_LENGTH };
	return (struct record){ task_offset(number - 1 - NEXUS_COUNT), TASK_LENGTH };
}

void table_empty(uint8_t *table, uint8_t policy)
{
	const uint8_t header[HEADER_LENGTH] = { 0x54, 0x48, 1, policy };

	memcpy(table, header, HEADER_LENGTH);
	for (size_t nexus = 0; nexus < NEXUS_COUNT; nexus++) {
		const uint8_t record[NEXUS_LENGTH] = { 0x54, 0x4E, (uint8_t)nexus };

		memcpy(table + nexus_offset(nexus), record, NEXUS_LENGTH);
	}
	for (size_t place = 0; place < TASK_LIMIT; place++)
		write_unused(table + task_offset(place));
}

uint8_t *table_add(uint8_t *table, uint8_t nexus, uint8_t attribute, uint8_t control, tag_number tag)
{
	uint8_t *task = table + task_offset(table[HEADER_COUNT]);
	const uint8_t record[TASK_LENGTH] = { 0x54, 0x54, nexus, attribute, DORMANT, control, TAG_BYTES(tag) };

	memcpy(task, record, TASK_LENGTH);
	table[HEADER_COUNT]++;
	return task;
}

static bool older_has(const uint8_t *table, size_t place, uint8_t attribute)
{
	for (size_t older = 0; older < place; older++)
		if (table[task_offset(older) + TASK_ATTRIBUTE] == attribute)
			return true;
	return false;
}

static bool eligible(const uint8_t *table, size_t place)
{
	switch (table[task_offset(place) + TASK_ATTRIBUTE]) {
	case SIMPLE:
		return !older_has(table, place, HEAD_OF_QUEUE) && !older_has(table, place, ORDERED);
	case HEAD_OF_QUEUE:
		return true;
	default:
		return place == 0;
	}
}

void table_enable_eligible(uint8_t *table)
{
	for (size_t place = 0; place < table[HEADER_COUNT]; place++)
		table[task_offset(place) + TASK_STATE] = eligible(table, place) ? ENABLED : DORMANT;
}

/* In an ACA an eligible task that is not HEAD OF QUEUE may be dormant: it became eligible too late. */
static void block_some_eligible(uint64_t *random, uint8_t *table)
{
	unsigned late = random_below(random, 101);

	for (size_t place = 0; place < table[HEADER_COUNT]; place++) {
		uint8_t *task = table + task_offset(place);

		task[TASK_STATE] = eligible(table, place) ? BLOCKED : DORMANT;
		if (task[TASK_ATTRIBUTE] != HEAD_OF_QUEUE && random_percent(random, late))
			task[TASK_STATE] = DORMANT;
	}
}

static bool has_task(const uint8_t *table, uint8_t nexus, tag_number tag)
{
	for (size_t place = 0; place < table[HEADER_COUNT]; place++) {
		const uint8_t *task = table + task_offset(place);

		if (task[TASK_NEXUS] == nexus && read_tag(task + TASK_TAG) == tag)
			return true;
	}
	return false;
}

static uint8_t random_attribute(uint64_t *random, unsigned simple_percent)
{
	if (random_percent(random, simple_percent))
		return SIMPLE;
	return (uint8_t)random_below(random, 3);
}

/* Few tags make neighbours of tasks that differ in one field only; as many as there are tasks always leave room. */
static void add_tasks(uint64_t *random, uint8_t *table, size_t count)
{
	uint64_t tags = random_percent(random, 50) ? TASK_LIMIT : TAG_COUNT;
	unsigned nexuses = 1 + random_below(random, NEXUS_COUNT);
	unsigned simple_percent = random_below(random, 101);

	while (table[HEADER_COUNT] < count) {
		uint8_t nexus = (uint8_t)random_below(random, nexuses);
		tag_number tag = (tag_number)random_below(random, tags);

		if (!has_task(table, nexus, tag))
			table_add(table, nexus, random_attribute(random, simple_percent), random_percent(random, 50), tag);
	}
}

static void add_aca_task(uint64_t *random, uint8_t *table)
{
	uint8_t nexus = table[HEADER_ACA] - 1;
	tag_number tag = (tag_number)random_below(random, TAG_COUNT);

	if (table[HEADER_COUNT] == TASK_LIMIT || has_task(table, nexus, tag))
		return;
	table_add(table, nexus, ACA, random_percent(random, 50), tag)[TASK_STATE] = ENABLED;
}

static size_t random_count(uint64_t *random)
{
	switch (random_below(random, 4)) {
	case 0:
		return random_below(random, 5);
	case 1:
		return TASK_LIMIT - random_below(random, 5);
	default:
		return random_below(random, TASK_LIMIT + 1);
	}
}

void table_random(uint64_t *random, uint8_t *table)
{
	unsigned pending_percent = random_below(random, 101);

	table_empty(table, good_policy(random_below(random, GOOD_POLICIES)));
	table[HEADER_RUN] = (uint8_t)random_below(random, RUN_LIMIT + 1);
	for (size_t nexus = 0; nexus < NEXUS_COUNT; nexus++)
		if (random_percent(random, pending_percent))
			table[nexus_offset(nexus) + NEXUS_PENDING] = (uint8_t)random_below(random, PENDING_ALL + 1);
	add_tasks(random, table, random_count(random));
	if (random_percent(random, 50)) {
		table_enable_eligible(table);
		return;
	}
	table[HEADER_ACA] = 1 + (uint8_t)random_below(random, NEXUS_COUNT);
	block_some_eligible(random, table);
	if (random_percent(random, 60))
		add_aca_task(random, table);
}
