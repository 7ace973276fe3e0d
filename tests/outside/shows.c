/* What the box shows, in the words of the files. */
#include "names.h"
#include "outside.h"

const char *const subject_words[SUBJECTS] = {"answer", "ended", "states", "named", "aca"};

static void show_answer(const struct box *box, struct text *text)
{
	const struct dedakhumi_answer *given = &box->answer;
	text_add(text, "%u %02X %02X %02X %02X %u", given->answer, given->status, given->key, given->code, given->qualifier, given->ended);
}

/* The whole report, whatever count the answer gives. */
static void show_ended(const struct box *box, struct text *text)
{
	for (size_t place = 0; place < DEDAKHUMI_TASKS && box->report[DEDAKHUMI_ENDED_LENGTH * place] != 0; place++) {
		struct dedakhumi_ended ended = dedakhumi_ended_at(box->report, place);
		text_add(text, "%s%u.%u %02X", place == 0 ? "" : ", ", ended.nexus, ended.tag, ended.status);
	}
}

static void show_states(const struct box *box, struct text *text)
{
	for (size_t place = 0; place < dedakhumi_task_count(box->table); place++) {
		struct dedakhumi_task task = dedakhumi_task_at(box->table, place);
		text_add(text, "%s%u.%u %s", place == 0 ? "" : ", ", task.nexus, task.tag, state_name(task.state));
	}
}

static void show_named(const struct box *box, struct text *text)
{
	struct dedakhumi_turn turn = dedakhumi_name(box->table, sizeof box->table);
	if (turn.answer != DEDAKHUMI_DONE)
		text_add(text, "refused by answer %u", turn.answer);
	else if (turn.found)
		text_add(text, "%u.%u", turn.nexus, turn.tag);
	else
		text_add(text, "nothing");
}

static void show_allegiance(const struct box *box, struct text *text)
{
	if (dedakhumi_faulted_nexus(box->table) != DEDAKHUMI_NEXUSES)
		text_add(text, "%u", dedakhumi_faulted_nexus(box->table));
}

void show(enum subject subject, const struct box *box, struct text *text)
{
	static void (*const shows[SUBJECTS])(const struct box *, struct text *) = {
		show_answer, show_ended, show_states, show_named, show_allegiance};
	shows[subject](box, text);
	if (text->used == 0)
		text_add(text, "none");
}
