#include "calls.h"

#include <stdio.h>

#include "dedakhumi.h"
#include "watch.h"

enum operation { START, APPLY, NAME, OPERATIONS };
enum { ANSWERS = 10 };

static struct fence table, report, event;
static unsigned long given[OPERATIONS][ANSWERS];
static char text[400];

void calls_prepare(void)
{
	fence_make(&table, "table");
	fence_make(&report, "report");
	fence_make(&event, "event");
	watch_faults(&table, &report, &event);
}

static const char *place_text(struct lent lent, enum place place)
{
	return lent.null ? "null" : fence_place_name(place);
}

static void count_answer(enum operation operation, enum answer answer)
{
	if ((int)answer >= ANSWERS)
		watch_fail("an answer above 9");
	given[operation][answer]++;
}

static void expect(enum answer answer, enum answer expected)
{
	static char why[60];
	if (answer == expected)
		return;
	snprintf(why, sizeof why, "answer %d where the rules say %d", (int)answer, (int)expected);
	watch_fail(why);
}

static void check_around(void)
{
	if (!fence_around_as_before(&table))
		watch_fail("a byte beside the table changed");
	if (!fence_around_as_before(&report))
		watch_fail("a byte beside the report changed");
	if (!fence_around_as_before(&event))
		watch_fail("a byte beside the event changed");
}

static bool is_refusal(enum answer answer)
{
	return answer != DONE && answer != ENDED_AT_ENTRY && answer != REJECTED;
}

static bool report_is_zeros(void)
{
	for (size_t i = 0; i < report.length; i++)
		if (report.begin[i] != 0)
			return false;
	return true;
}

/* RULES 18.3 and 19.1: under 1 to 6 both buffers are the same, under 8 the table is and the report is zeros. */
static void check_kept(const struct application *application, enum answer answer)
{
	if ((is_refusal(answer) || answer == REJECTED) && !fence_same(&table, application->table))
		watch_fail("the table changed under a refusal");
	if (is_refusal(answer) && !fence_same(&report, application->report))
		watch_fail("the report changed under a refusal");
	if (answer == REJECTED && !report_is_zeros())
		watch_fail("the report is not zeros under answer 8");
	if (!fence_same(&event, application->event))
		watch_fail("the event changed");
}

static void describe_apply(const struct application *application, bool table_writable, bool report_writable)
{
	const struct lent *lent_table = &application->table, *lent_report = &application->report, *lent_event = &application->event;
	snprintf(text, sizeof text, "apply, %s (table %zu bytes %s%s, report %zu bytes %s%s, event %zu bytes %s, read only)",
		 application->what, lent_table->length, place_text(*lent_table, application->table_place),
		 table_writable ? "" : ", read only", lent_report->length, place_text(*lent_report, application->report_place),
		 report_writable ? "" : ", read only", lent_event->length, place_text(*lent_event, application->event_place));
	watch_case(text);
}

static enum answer apply_once(const struct application *application, bool table_writable, bool report_writable)
{
	describe_apply(application, table_writable, report_writable);
	fence_put(&table, application->table_place, application->table, table_writable);
	fence_put(&report, application->report_place, application->report, report_writable);
	fence_put(&event, application->event_place, application->event, false);
	enum answer answer =
		dedakhumi_apply(table.begin, table.length, report.begin, report.length, event.begin, event.length).answer;
	count_answer(APPLY, answer);
	check_around();
	check_kept(application, answer);
	return answer;
}

enum answer call_apply(const struct application *application, enum answer refusal)
{
	if (refusal != DONE) {
		expect(apply_once(application, false, false), refusal);
		return refusal;
	}
	enum answer answer = apply_once(application, true, true);
	if (answer != DONE && answer <= NEXUS_ABOVE_SEVEN)
		expect(answer, DONE);
	/* What may not change is lent again on pages that cannot be written. */
	if (is_refusal(answer) || answer == REJECTED)
		expect(apply_once(application, false, answer == REJECTED), answer);
	return answer;
}

static void lend_table_alone(const char *operation, const char *what, struct lent lent, enum place place, bool writable)
{
	static const struct lent nothing;
	snprintf(text, sizeof text, "%s, %s (table %zu bytes %s%s)", operation, what, lent.length, place_text(lent, place),
		 writable ? "" : ", read only");
	watch_case(text);
	fence_put(&table, place, lent, writable);
	fence_put(&report, AT_START, nothing, false);
	fence_put(&event, AT_START, nothing, false);
}

void call_start(const char *what, struct lent lent, enum place place, uint8_t policy, enum answer expected)
{
	lend_table_alone("start", what, lent, place, expected == DONE);
	enum answer answer = dedakhumi_start(table.begin, table.length, policy);
	count_answer(START, answer);
	expect(answer, expected);
	check_around();
	if (answer != DONE && !fence_same(&table, lent))
		watch_fail("the table changed under a refusal");
}

enum answer call_name(const char *what, struct lent lent, enum place place)
{
	lend_table_alone("name", what, lent, place, false);
	struct dedakhumi_turn turn = dedakhumi_name(table.begin, table.length);
	count_answer(NAME, turn.answer);
	check_around();
	if (!fence_same(&table, lent))
		watch_fail("the table changed");
	if (!turn.found && (turn.nexus != 0 || turn.tag != 0))
		watch_fail("nexus and tag are not 0 though nothing was named");
	return turn.answer;
}

void call_name_expecting(const char *what, struct lent lent, enum place place, enum answer expected)
{
	expect(call_name(what, lent, place), expected);
}

unsigned long calls_count(void)
{
	unsigned long count = 0;
	for (int i = 0; i < OPERATIONS * ANSWERS; i++)
		count += given[i / ANSWERS][i % ANSWERS];
	return count;
}

/* Says how often the operation gave each answer; false if one that it can give is not among them. */
static bool operation_covered(enum operation operation, const char *name, const bool possible[ANSWERS])
{
	bool covered = true;
	printf("%s:", name);
	for (int answer = 0; answer < ANSWERS; answer++) {
		if (given[operation][answer] != 0)
			printf(" answer %d %lu times,", answer, given[operation][answer]);
		covered = covered && possible[answer] == (given[operation][answer] != 0);
	}
	printf("\n");
	return covered;
}

bool calls_covered(void)
{
	static const bool by_start[ANSWERS] = {[DONE] = true, [BAD_TABLE] = true, [BAD_POLICY] = true};
	static const bool by_apply[ANSWERS] = {true, true, true, true, true, true, true, true, true, false};
	static const bool by_name[ANSWERS] = {[DONE] = true, [BAD_TABLE] = true};
	bool start = operation_covered(START, "start", by_start), apply = operation_covered(APPLY, "apply", by_apply);
	return operation_covered(NAME, "name", by_name) && start && apply;
}
