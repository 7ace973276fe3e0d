/* The three operations touch no byte beyond what is lent, write nothing that is lent to be read, and write nothing under a refusal. */
#define _DEFAULT_SOURCE
#include <stdio.h>
#include <stdlib.h>
#include <string.h>

#include "../usage.h"
#include "calls.h"
#include "samples.h"

/* Table, report and event. */
enum { BUFFERS = 3 };

/* As many as the longest buffer, which fills its page. */
static uint8_t *report_bytes;

static struct lent lend(const uint8_t *bytes, size_t length)
{
	return (struct lent){.bytes = bytes, .length = length};
}

static struct lent lend_null(void)
{
	return (struct lent){.null = true};
}

static const char *join(const char *event, const char *table)
{
	static char text[160];
	snprintf(text, sizeof text, "%s on %s", event, table);
	return text;
}

/* Each buffer at a page's start and at its end, in all combinations, and all three inside at odd addresses. */
static void apply_everywhere(struct application application, enum answer refusal)
{
	for (unsigned combination = 0; combination < 1u << BUFFERS; combination++) {
		application.table_place = combination & 1 ? AT_END : AT_START;
		application.report_place = combination & 2 ? AT_END : AT_START;
		application.event_place = combination & 4 ? AT_END : AT_START;
		call_apply(&application, refusal);
	}
	application.table_place = application.report_place = application.event_place = INSIDE;
	call_apply(&application, refusal);
}

static void name_everywhere(const char *what, struct lent table, enum answer expected)
{
	call_name_expecting(what, table, AT_START, expected);
	call_name_expecting(what, table, AT_END, expected);
	call_name_expecting(what, table, INSIDE, expected);
}

static void start_everywhere(const char *what, struct lent table, uint8_t policy, enum answer expected)
{
	call_start(what, table, AT_START, policy, expected);
	call_start(what, table, AT_END, policy, expected);
	call_start(what, table, INSIDE, policy, expected);
}

static void apply_each_event(const struct sample_table *table, bool good)
{
	for (size_t i = 0; i < sample_event_count; i++) {
		struct sample_event sample = sample_event(i);
		struct application application = {.what = join(sample.name, table->name),
						  .table = lend(table->bytes, sizeof table->bytes),
						  .report = lend(report_bytes, REPORT_LENGTH),
						  .event = lend(sample.event.bytes, sizeof sample.event.bytes)};
		apply_everywhere(application, good ? sample.refusal : BAD_TABLE);
	}
}

static void try_good_tables(void)
{
	struct sample_table table;
	for (size_t i = 0; i < sample_table_count; i++) {
		sample_good_table(i, &table);
		name_everywhere(table.name, lend(table.bytes, sizeof table.bytes), DONE);
		apply_each_event(&table, true);
	}
}

static void try_bad_tables(void)
{
	struct sample_table table;
	for (size_t i = 0; i < sample_damage_count; i++) {
		sample_bad_table(i, &table);
		name_everywhere(table.name, lend(table.bytes, sizeof table.bytes), BAD_TABLE);
		apply_each_event(&table, false);
	}
}

/* "The lowest of 1 to 4 that applies is given." */
static enum answer refusal_by_length(size_t table, size_t report, size_t event, enum answer otherwise)
{
	if (table != TABLE_LENGTH)
		return BAD_TABLE;
	if (report != REPORT_LENGTH)
		return BAD_REPORT;
	return event != EVENT_LENGTH ? BAD_EVENT : otherwise;
}

static void apply_event_length(struct application application, size_t length, enum answer otherwise)
{
	application.event.length = length;
	apply_everywhere(application, refusal_by_length(application.table.length, application.report.length, length, otherwise));
}

static void apply_each_event_length(struct application application, enum answer otherwise)
{
	for (size_t length = 0; length <= EVENT_LENGTH + 1; length++)
		apply_event_length(application, length, otherwise);
	apply_event_length(application, 2 * EVENT_LENGTH, otherwise);
	apply_event_length(application, fence_page_length(), otherwise);
}

static void apply_each_length(struct application application, enum answer otherwise)
{
	const size_t table_lengths[] = {0, 1, HEADER_LENGTH, TASK_RECORDS, TABLE_LENGTH - 1, TABLE_LENGTH, TABLE_LENGTH + 1, 2 * TABLE_LENGTH,
		fence_page_length()};
	const size_t report_lengths[] = {0, 1, REPORT_LENGTH - 1, REPORT_LENGTH, REPORT_LENGTH + 1, fence_page_length()};
	for (size_t i = 0; i < sizeof table_lengths / sizeof table_lengths[0]; i++)
		for (size_t j = 0; j < sizeof report_lengths / sizeof report_lengths[0]; j++) {
			application.table.length = table_lengths[i];
			application.report.length = report_lengths[j];
			apply_each_event_length(application, otherwise);
		}
}

/* Longer buffers hold the right bytes first and the same over again behind them. */
static uint8_t *repeated(const uint8_t *bytes, size_t length)
{
	size_t page = fence_page_length();
	uint8_t *copy = malloc(page);
	if (copy == NULL)
		exit(2);
	for (size_t i = 0; i < page; i++)
		copy[i] = bytes[i % length];
	return copy;
}

static void try_lengths_of_one_table(size_t index)
{
	struct sample_table table;
	sample_good_table(index, &table);
	uint8_t *table_bytes = repeated(table.bytes, sizeof table.bytes);
	for (size_t i = 0; i < sample_event_count; i += 6) {
		struct sample_event sample = sample_event(i);
		uint8_t *event_bytes = repeated(sample.event.bytes, sizeof sample.event.bytes);
		struct application application = {.what = join(sample.name, table.name),
						  .table.bytes = table_bytes,
						  .report.bytes = report_bytes,
						  .event.bytes = event_bytes};
		apply_each_length(application, sample.refusal);
		free(event_bytes);
	}
	free(table_bytes);
}

static void try_lengths(void)
{
	for (size_t i = 0; i < sample_table_count; i += 7)
		try_lengths_of_one_table(i);
}

/* A null pointer for each slice, the others good or null too. */
static void try_null_pointers(void)
{
	struct sample_table table;
	struct sample_event sample = sample_event(0);
	sample_good_table(0, &table);
	for (unsigned nulls = 1; nulls < 1u << BUFFERS; nulls++) {
		struct application application = {
			.what = "null pointers",
			.table = nulls & 1 ? lend_null() : lend(table.bytes, sizeof table.bytes),
			.report = nulls & 2 ? lend_null() : lend(report_bytes, REPORT_LENGTH),
			.event = nulls & 4 ? lend_null() : lend(sample.event.bytes, sizeof sample.event.bytes)};
		apply_everywhere(application,
				 refusal_by_length(application.table.length, application.report.length, application.event.length, DONE));
	}
	name_everywhere("null pointer", lend_null(), BAD_TABLE);
	start_everywhere("null pointer", lend_null(), 0, BAD_TABLE);
	start_everywhere("null pointer and a bad policy", lend_null(), 2, BAD_TABLE);
}

static bool policy_is_good(unsigned policy)
{
	return policy <= (POLICY_QERR | POLICY_TAS) && (policy & POLICY_QERR) != QERR_BAD;
}

static void try_start_and_name_lengths(void)
{
	const size_t lengths[] = {0, 1, HEADER_LENGTH, TASK_RECORDS, TABLE_LENGTH - 1, TABLE_LENGTH, TABLE_LENGTH + 1, 2 * TABLE_LENGTH,
		fence_page_length()};
	struct sample_table table;
	sample_good_table(0, &table);
	uint8_t *bytes = repeated(table.bytes, sizeof table.bytes);
	for (size_t i = 0; i < sizeof lengths / sizeof lengths[0]; i++) {
		bool right = lengths[i] == TABLE_LENGTH;
		name_everywhere("a length", lend(bytes, lengths[i]), right ? DONE : BAD_TABLE);
		for (unsigned policy = 0; policy < 256; policy++)
			start_everywhere("a length and a policy", lend(report_bytes, lengths[i]), (uint8_t)policy,
					 !right ? BAD_TABLE : policy_is_good(policy) ? DONE : BAD_POLICY);
	}
	free(bytes);
}

/* Whether a table with one byte changed is good is for name to say; apply has to agree. */
static void try_changed_table(const struct sample_table *table, const struct sample_event *sample, enum place place)
{
	struct lent lent = lend(table->bytes, sizeof table->bytes);
	struct application application = {.what = join(sample->name, table->name),
					  .table = lent,
					  .report = lend(report_bytes, REPORT_LENGTH),
					  .event = lend(sample->event.bytes, sizeof sample->event.bytes),
					  .table_place = place,
					  .report_place = place,
					  .event_place = place};
	enum answer named = call_name("one byte changed", lent, place);
	call_apply(&application, named == DONE ? sample->refusal : BAD_TABLE);
}

static void try_each_changed_byte(size_t index)
{
	static const uint8_t others[] = {0x01, 0x40, 0xFF};
	struct sample_table table;
	sample_good_table(index, &table);
	table.name = "a table with one byte changed";
	for (size_t i = 0; i < sizeof table.bytes * (sizeof others / sizeof others[0]); i++) {
		size_t offset = i % sizeof table.bytes;
		uint8_t before = table.bytes[offset];
		table.bytes[offset] ^= others[i / sizeof table.bytes];
		struct sample_event sample = sample_event(i % sample_event_count);
		try_changed_table(&table, &sample, AT_START);
		try_changed_table(&table, &sample, AT_END);
		table.bytes[offset] = before;
	}
}

static void try_changed_bytes(void)
{
	for (size_t i = 0; i < sample_table_count; i++)
		try_each_changed_byte(i);
}

int main(int argument_count, char **arguments)
{
	(void)arguments;
	take_no_argument("pages", argument_count);
	calls_prepare();
	report_bytes = malloc(fence_page_length());
	if (report_bytes == NULL)
		return 2;
	memset(report_bytes, 0xA5, fence_page_length());
	try_null_pointers();
	try_start_and_name_lengths();
	try_good_tables();
	try_bad_tables();
	try_lengths();
	try_changed_bytes();
	if (!calls_covered()) {
		fprintf(stderr, "pages: an answer that can be given was not, or one that can't be was\n");
		return 1;
	}
	printf("pages: %lu calls, no access beyond the buffers\n", calls_count());
	free(report_bytes);
	return 0;
}
