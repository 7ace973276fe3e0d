#include "show.h"
#include "tables.h"

#include <stdio.h>

static void show_bytes(const uint8_t *bytes, size_t length)
{
	for (size_t byte = 0; byte < length; byte++)
		printf(" %02X", bytes[byte]);
}

/* How many records from this one on have the same bytes. */
static size_t same_records(const uint8_t *table, size_t number, size_t length)
{
	struct record first = table_record(number);
	struct record next = table_record(number + 1);
	size_t same = 1;

	while (next.length == first.length && next.offset + next.length <= length &&
		memcmp(table + first.offset, table + next.offset, first.length) == 0)
		next = table_record(number + ++same);
	return same;
}

static void show_table(const uint8_t *table, size_t length)
{
	struct record record = table_record(0);
	size_t number = 0;

	while (record.offset < length) {
		size_t left = length - record.offset;
		size_t same = same_records(table, number, length);

		printf("  %3zu:", record.offset);
		show_bytes(table + record.offset, left < record.length ? left : record.length);
		if (same > 1)
			printf(", %zu times", same);
		printf("\n");
		number += same;
		record = table_record(number);
	}
}

static void show_step(size_t number, const struct step *step)
{
	const char *before = step->fill == FILL_ZEROS ? "zeros" : step->fill == FILL_ONES ? "FFh" : "random bytes";

	printf("event %zu (%d bytes, report held %s):", number + 1, step->event_length, before);
	show_bytes(step->event, step->event_length);
	printf("\n");
}

void show_trial(const struct trial *trial)
{
	if (!trial->starts || trial->table_length != TABLE_LENGTH) {
		printf("table of %zu bytes lent:\n", trial->table_length);
		show_table(trial->table, trial->table_length);
	}
	if (trial->starts)
		printf("start with policy %02Xh over %zu bytes\n", trial->policy, trial->table_length);
	if (trial->report_length != REPORT_LENGTH)
		printf("report of %zu bytes\n", trial->report_length);
	for (size_t step = 0; step < trial->step_count; step++)
		show_step(step, &trial->steps[step]);
}

static void show_side(const char *side, const struct dedakhumi_answer *answer, const struct dedakhumi_turn *turn, bool applied)
{
	printf("%s:", side);
	if (applied)
		printf(" answer %d, status %02Xh, sense %Xh/%02Xh/%02Xh, ended %d;", answer->answer, answer->status,
			answer->key, answer->code, answer->qualifier, answer->ended);
	printf(" naming %d, found %d, nexus %d, tag %u\n", turn->answer, turn->found, turn->nexus, turn->tag);
}

static long record_offset(enum buffer buffer, size_t number)
{
	switch (buffer) {
	case TABLE_BUFFER:
		return (long)table_record(number).offset;
	case REPORT_BUFFER:
		return (long)number * ENDED_LENGTH;
	default:
		return (long)number * EVENT_LENGTH;
	}
}

static void show_byte(enum buffer buffer, long byte)
{
	size_t number = 0;

	while (record_offset(buffer, number + 1) <= byte)
		number++;
	printf(" %ld (record %zu, byte %ld)", byte, number, byte - record_offset(buffer, number));
}

static void show_place(const struct difference *difference)
{
	printf("first that differs: %s", difference->place);
	if (difference->byte != -1)
		show_byte(difference->buffer, difference->byte);
	printf(": archive %02Xh, second %02Xh\n", difference->archive, difference->second);
}

void show_difference(const struct run *run, const struct trial *trial)
{
	const struct difference *difference = &run->difference;
	bool applied = difference->step != NO_STEP;

	if (trial->starts)
		printf("archive: start %d; second: start %d\n", difference->starts[ARCHIVE], difference->starts[SECOND]);
	show_side("archive", &difference->answers[ARCHIVE], &difference->turns[ARCHIVE], applied);
	show_side("second ", &difference->answers[SECOND], &difference->turns[SECOND], applied);
	show_place(difference);
}
