/* The three operations: what is looked at first, and who decides then. */
#include "parts.h"

_Static_assert(TABLE_LENGTH == DEDAKHUMI_TABLE_LENGTH && REPORT_LENGTH == DEDAKHUMI_REPORT_LENGTH && EVENT_LENGTH == DEDAKHUMI_EVENT_LENGTH,
	"layout.h and dedakhumi.h have the same lengths");
_Static_assert(sizeof(tag_number) == sizeof((struct dedakhumi_turn){ 0 }.tag), "a tag is as wide as it is named");

static void write_nexus_records(uint8_t *table)
{
	for (size_t nexus = 0; nexus < NEXUS_COUNT; nexus++) {
		uint8_t *record = table + nexus_offset(nexus);

		memcpy(record, NEXUS_MARK, MARK_LENGTH);
		record[NEXUS_NUMBER] = (uint8_t)nexus;
		record[NEXUS_PENDING] = PENDING_POWER_ON;
	}
}

/* RULES 4.2: as after power on. */
uint8_t second_start(uint8_t *table, size_t table_len, uint8_t policy)
{
	if (table_len != TABLE_LENGTH)
		return ANSWER_BAD_TABLE;
	if (!second_good_policy(policy))
		return ANSWER_BAD_POLICY;
	memset(table, 0, TABLE_LENGTH);
	memcpy(table, HEADER_MARK, MARK_LENGTH);
	table[HEADER_FORM] = 1;
	table[HEADER_POLICY] = policy;
	write_nexus_records(table);
	for (size_t place = 0; place < TASK_LIMIT; place++)
		write_unused(table + task_offset(place));
	return ANSWER_DONE;
}

/* Answers 1 to 4, the lowest that applies; 0 if none does. */
static uint8_t refusal(const uint8_t *table, size_t table_len, size_t report_len, const uint8_t *event, size_t event_len)
{
	if (table_len != TABLE_LENGTH || !second_well_formed(table))
		return ANSWER_BAD_TABLE;
	if (report_len != REPORT_LENGTH)
		return ANSWER_BAD_REPORT_LENGTH;
	if (event_len != EVENT_LENGTH || !second_good_event(event))
		return ANSWER_BAD_EVENT;
	if (event[EVENT_NEXUS] >= NEXUS_COUNT)
		return ANSWER_BAD_NEXUS;
	return ANSWER_DONE;
}

struct dedakhumi_answer second_apply(uint8_t *table, size_t table_len, uint8_t *report, size_t report_len,
	const uint8_t *event, size_t event_len)
{
	uint8_t refused = refusal(table, table_len, report_len, event, event_len);

	if (refused != ANSWER_DONE)
		return plain_answer(refused);
	switch (event[EVENT_KIND]) {
	case COMMAND:
		return second_command(table, report, event);
	case COMPLETION:
		return second_completion(table, report, event);
	case MANAGEMENT:
		return second_management(table, report, event);
	default:
		return second_condition(table, report, event);
	}
}

struct dedakhumi_turn second_name(const uint8_t *table, size_t table_len)
{
	struct dedakhumi_turn turn = { .answer = ANSWER_DONE };
	size_t place;

	if (table_len != TABLE_LENGTH || !second_well_formed(table)) {
		turn.answer = ANSWER_BAD_TABLE;
		return turn;
	}
	place = second_turn(table);
	if (place == NO_TASK)
		return turn;
	turn.found = true;
	turn.nexus = table[task_offset(place) + TASK_NEXUS];
	turn.tag = read_tag(table + task_offset(place) + TASK_TAG);
	return turn;
}
