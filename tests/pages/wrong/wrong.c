/* The test of the test: the library's operations with one fault added, which the environment's FAULT names (see tests/pages/faults). */
#include <stdlib.h>
#include <string.h>

#include "dedakhumi.h"

uint8_t wrong_start(uint8_t *table, size_t table_len, uint8_t policy);
struct dedakhumi_answer wrong_apply(uint8_t *table, size_t table_len, uint8_t *report, size_t report_len, const uint8_t *event,
				    size_t event_len);
struct dedakhumi_turn wrong_name(const uint8_t *table, size_t table_len);

static bool has(const char *fault)
{
	const char *asked = getenv("FAULT");
	return asked != NULL && strcmp(asked, fault) == 0;
}

static void read_at(const volatile uint8_t *address)
{
	(void)*address;
}

/* The same value: only a page that cannot be written shows it. */
static void rewrite_at(volatile uint8_t *address)
{
	*address = *address;
}

static void spoil_at(volatile uint8_t *address)
{
	*address ^= 0xFF;
}

static void read_beyond(const char *after, const char *before, const uint8_t *bytes, size_t length)
{
	if (length > 0 && has(after))
		read_at(bytes + length);
	if (length > 0 && has(before))
		read_at(bytes - 1);
}

static void write_beyond(const char *after, const char *before, uint8_t *bytes, size_t length)
{
	if (has(after))
		spoil_at(bytes + length);
	if (has(before))
		spoil_at(bytes - 1);
}

static void read_empty(const char *empty, const char *null, const uint8_t *bytes, size_t length)
{
	if (length == 0 && bytes != NULL && has(empty))
		read_at(bytes);
	if (length == 0 && bytes == NULL && has(null))
		read_at(bytes);
}

uint8_t wrong_start(uint8_t *table, size_t table_len, uint8_t policy)
{
	read_beyond("start-reads-after-table", "start-reads-before-table", table, table_len);
	read_empty("start-reads-empty-table", "start-reads-null-table", table, table_len);
	uint8_t answer = dedakhumi_start(table, table_len, policy);
	if (answer == 0)
		write_beyond("start-writes-after-table", "start-writes-before-table", table, table_len);
	if (answer == 9 && has("start-rewrites-table-under-9"))
		rewrite_at(table);
	return answer;
}

struct dedakhumi_turn wrong_name(const uint8_t *table, size_t table_len)
{
	read_beyond("name-reads-after-table", "name-reads-before-table", table, table_len);
	read_empty("name-reads-empty-table", "name-reads-null-table", table, table_len);
	if (table_len > 0 && has("name-rewrites-table"))
		rewrite_at((uint8_t *)table);
	return dedakhumi_name(table, table_len);
}

static void touch_before_apply(uint8_t *table, size_t table_len, uint8_t *report, size_t report_len, const uint8_t *event, size_t event_len)
{
	read_beyond("apply-reads-after-table", "apply-reads-before-table", table, table_len);
	read_beyond("apply-reads-after-report", "apply-reads-before-report", report, report_len);
	read_beyond("apply-reads-after-event", "apply-reads-before-event", event, event_len);
	read_empty("apply-reads-empty-table", "apply-reads-null-table", table, table_len);
	read_empty("apply-reads-empty-report", "apply-reads-null-report", report, report_len);
	read_empty("apply-reads-empty-event", "apply-reads-null-event", event, event_len);
	if (event_len > 0 && has("apply-rewrites-event"))
		rewrite_at((uint8_t *)event);
}

static void touch_after_apply(uint8_t answer, uint8_t *table, uint8_t *report, const uint8_t *event)
{
	if (answer == 0)
		write_beyond("apply-writes-after-table", "apply-writes-before-table", table, DEDAKHUMI_TABLE_LENGTH);
	if (answer == 0)
		write_beyond("apply-writes-after-report", "apply-writes-before-report", report, DEDAKHUMI_REPORT_LENGTH);
	if (answer == 6 && has("apply-reads-after-event-under-6"))
		read_at(event + DEDAKHUMI_EVENT_LENGTH);
	if (answer >= 3 && answer <= 6 && has("apply-rewrites-table-under-3-to-6"))
		rewrite_at(table + DEDAKHUMI_TABLE_LENGTH - 1);
	if (answer >= 3 && answer <= 6 && has("apply-rewrites-report-under-3-to-6"))
		rewrite_at(report + DEDAKHUMI_REPORT_LENGTH - 1);
	if (answer == 8 && has("apply-rewrites-table-under-8"))
		rewrite_at(table);
	if (answer == 8 && has("apply-spoils-report-under-8"))
		spoil_at(report + DEDAKHUMI_REPORT_LENGTH - 1);
}

struct dedakhumi_answer wrong_apply(uint8_t *table, size_t table_len, uint8_t *report, size_t report_len, const uint8_t *event,
				    size_t event_len)
{
	touch_before_apply(table, table_len, report, report_len, event, event_len);
	struct dedakhumi_answer answer = dedakhumi_apply(table, table_len, report, report_len, event, event_len);
	touch_after_apply(answer.answer, table, report, event);
	if (answer.answer == 2 && has("apply-answers-3-for-2"))
		answer.answer = 3;
	return answer;
}
