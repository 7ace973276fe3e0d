/* Tables that were well formed, damaged in every byte and in every way. */
#include "random.h"
#include "session.h"
#include "streams.h"
#include "tables.h"

enum { BASES = 40, HEADERS = 100, RANDOM_DAMAGES = 20000, RECORD_DAMAGES = 20000, REACH_LENGTH = 200, WAYS = 13 };

/* Ways 0 to 7 flip a bit. */
static uint8_t damaged_byte(uint64_t *random, uint8_t byte, unsigned way)
{
	switch (way) {
	case 8:
		return 0x00;
	case 9:
		return 0xFF;
	case 10:
		return byte + 1;
	case 11:
		return byte - 1;
	case 12:
		return (uint8_t)random_below(random, 256);
	default:
		return byte ^ (uint8_t)(1u << way);
	}
}

/* The last step leaves the reached table in the archive's room, from where it is taken. */
static void reach_table(struct session *session, uint8_t *table)
{
	struct trial *trial = session_new_trial(session);
	const struct stream *stream = &streams[2 + random_below(&session->random, STREAM_COUNT - 2)];
	unsigned length = random_below(&session->random, REACH_LENGTH);

	trial->starts = true;
	trial->policy = good_policy(random_below(&session->random, GOOD_POLICIES));
	session_open(session);
	while (length-- > 0) {
		struct step *step = session_new_step(session);

		stream->next(&session->random, run_table(&session->run, trial), step);
		session_apply(session);
	}
	memcpy(table, run_table(&session->run, trial), TABLE_LENGTH);
}

static void base_table(struct session *session, uint8_t *table)
{
	if (random_percent(&session->random, 50))
		reach_table(session, table);
	else
		table_random(&session->random, table);
}

/* Naming and one event; sometimes a start over the damaged bytes. */
static void compare_table(struct session *session, const uint8_t *table)
{
	struct trial *trial = session_new_trial(session);
	const struct stream *stream = &streams[1 + random_below(&session->random, STREAM_COUNT - 1)];

	memcpy(trial->table, table, TABLE_LENGTH);
	trial->starts = random_percent(&session->random, 3);
	trial->policy = (uint8_t)random_below(&session->random, 9);
	session_open(session);
	stream->next(&session->random, run_table(&session->run, trial), session_new_step(session));
	session_apply(session);
}

static void damage_byte(struct session *session, const uint8_t *base, size_t byte)
{
	uint8_t table[TABLE_LENGTH];

	memcpy(table, base, sizeof table);
	for (unsigned way = 0; way < WAYS; way++) {
		table[byte] = damaged_byte(&session->random, base[byte], way);
		if (table[byte] != base[byte])
			compare_table(session, table);
	}
}

static void damage_every_byte(struct session *session)
{
	uint8_t base[TABLE_LENGTH];

	base_table(session, base);
	for (size_t byte = 0; byte < sizeof base; byte++)
		damage_byte(session, base, byte);
}

/* Every value of every byte of the header, under which the tasks are good or not. */
static void damage_header(struct session *session)
{
	uint8_t base[TABLE_LENGTH], table[TABLE_LENGTH];

	base_table(session, base);
	for (unsigned change = 0; change < HEADER_LENGTH * 256; change++) {
		memcpy(table, base, sizeof table);
		table[change / 256] = (uint8_t)change;
		compare_table(session, table);
	}
}

static unsigned random_record(uint64_t *random)
{
	return random_below(random, TABLE_RECORDS);
}

/* Of two records of different lengths, the shorter one's bytes. */
static void swap_records(uint64_t *random, uint8_t *table)
{
	unsigned number = random_record(random);
	struct record one = table_record(number);
	struct record other = table_record(random_percent(random, 50) ? random_record(random) : (number + 1) % TABLE_RECORDS);
	size_t length = one.length < other.length ? one.length : other.length;

	for (size_t byte = 0; byte < length; byte++) {
		uint8_t kept = table[one.offset + byte];

		table[one.offset + byte] = table[other.offset + byte];
		table[other.offset + byte] = kept;
	}
}

static void clear_record(uint64_t *random, uint8_t *table)
{
	struct record record = table_record(random_record(random));

	memset(table + record.offset, 0, record.length);
	memcpy(table + record.offset, TASK_MARK, MARK_LENGTH);
}

/* A second task of the same nexus and tag, in the place of another or as the youngest. */
static void duplicate_task(uint64_t *random, uint8_t *table)
{
	size_t count = table[HEADER_COUNT];
	size_t place = count;

	if (count == 0)
		return;
	if (count == TASK_LIMIT || random_percent(random, 50))
		place = random_below(random, count);
	else
		table[HEADER_COUNT]++;
	memcpy(table + task_offset(place), table + task_offset(random_below(random, count)), TASK_LENGTH);
	if (table[HEADER_ACA] == 0)
		table_enable_eligible(table);
}

/* Nexus and tag alone, so that the states stay right and only the clash is wrong. */
static void duplicate_name(uint64_t *random, uint8_t *table)
{
	unsigned count = table[HEADER_COUNT];
	const uint8_t *one;
	uint8_t *other;

	if (count == 0)
		return;
	one = table + task_offset(random_below(random, count));
	other = table + task_offset(random_below(random, count));
	other[TASK_NEXUS] = one[TASK_NEXUS];
	memmove(other + TASK_TAG, one + TASK_TAG, TAG_LENGTH);
}

static void damage_records(uint64_t *random, uint8_t *table)
{
	switch (random_below(random, 6)) {
	case 0:
		swap_records(random, table);
		break;
	case 1:
		duplicate_task(random, table);
		break;
	case 2:
		duplicate_name(random, table);
		break;
	case 3:
		table[HEADER_COUNT] += random_percent(random, 50) ? 1 : -1;
		break;
	case 4:
		table[HEADER_ACA] = (uint8_t)random_below(random, NEXUS_COUNT + 2);
		break;
	default:
		clear_record(random, table);
	}
}

static void damage_some_records(struct session *session)
{
	uint8_t table[TABLE_LENGTH];

	table_random(&session->random, table);
	damage_records(&session->random, table);
	compare_table(session, table);
}

/* One byte of the header or of a used task, where damage is not always fatal. */
static void damage_one_byte(struct session *session)
{
	uint8_t table[TABLE_LENGTH];
	size_t byte = random_below(&session->random, TASK_RECORDS);

	table_random(&session->random, table);
	if (table[HEADER_COUNT] > 0 && random_percent(&session->random, 75))
		byte = task_offset(random_below(&session->random, table[HEADER_COUNT])) + random_below(&session->random, TASK_LENGTH);
	table[byte] = damaged_byte(&session->random, table[byte], random_below(&session->random, WAYS));
	compare_table(session, table);
}

void compare_damaged_tables(struct session *session)
{
	session_part(session, "tables damaged in one byte", RANDOM_DAMAGES, damage_one_byte);
	session_part(session, "tables damaged in whole records", RECORD_DAMAGES, damage_some_records);
	session_part(session, "tables damaged in the header", HEADERS, damage_header);
	session_part(session, "tables damaged in every byte", BASES, damage_every_byte);
}
