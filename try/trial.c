#include "trial.h"

#include <string.h>

#include "happening.h"
#include "names.h"

/* What waited for the hosts before was the former table's, which is gone like its tasks. */
static void show_start(const struct session *session, uint8_t policy)
{
	show_policy(policy);
	putchar('\n');
	show_table(session->table);
	show_pending(session->table);
}

void try_start(struct session *session, const struct line *line)
{
	uint8_t answer = dedakhumi_start(session->table, sizeof session->table, line->policy);
	printf("  %u %s: ", answer, answer_name(answer));
	if (answer == DEDAKHUMI_DONE) {
		show_start(session, line->policy);
	} else {
		printf("%02Xh, and right would be 00, 01, 03, 04, 05 or 07; nothing has changed\n", line->policy);
		show_table(session->table);
	}
}

void try_record(struct session *session, const struct line *line)
{
	uint8_t before[DEDAKHUMI_TABLE_LENGTH];
	struct happening happening = {.before = before, .table = session->table, .report = session->report, .record = line->record,
		.length = line->length, .event = dedakhumi_fields_of(line->record)};
	memcpy(before, session->table, sizeof before);
	happening.answer = dedakhumi_apply(session->table, sizeof session->table, session->report, sizeof session->report, line->record,
		line->length);
	show_answer(&happening);
	show_table(session->table);
	show_attentions(&happening);
}
