#include "session.h"

#include <string.h>

#include "failure.h"
#include "happening.h"
#include "trial.h"
#include "words.h"

bool session_begin(struct session *session)
{
	memset(session, 0, sizeof *session);
	dedakhumi_start(session->table, sizeof session->table, DEDAKHUMI_POLICY_QERR_NONE);
	show_policy(DEDAKHUMI_POLICY_QERR_NONE);
	printf("; \"help\" shows what a line may be\n");
	show_pending(session->table);
	return flush_output();
}

/* So that the output reads as a session by hand does. */
static void show_input(const struct input_line *input)
{
	struct text shown = {.used = 0};
	add_line(&shown, input->bytes, input->length);
	printf("> %s\n", shown.bytes);
}

/* The lines that are no events, each by the words for it. */
enum { OWN_HELP, OWN_PENDING, OWN_QUIT };
static const struct name own_words[] = {{OWN_HELP, "help"}, {OWN_HELP, "?"}, {OWN_PENDING, "pending"}, {OWN_QUIT, "quit"},
	{OWN_QUIT, "exit"}, {OWN_QUIT, "q"}, {0, NULL}};

static void show_help(void)
{
	struct text forms = {.used = 0};
	add_forms(&forms);
	printf("%s  pending shows what waits to be told, and help or ? shows this. quit, exit, q or the end of the input ends the session.\n",
		forms.bytes);
}

static void take_own(struct session *session, uint8_t own)
{
	if (own == OWN_HELP)
		show_help();
	if (own == OWN_PENDING)
		show_pending(session->table);
	session->left = own == OWN_QUIT;
}

/* Standard output first, so that the message stands behind its line where both go to one place. */
static bool complain(struct session *session, const struct source *source, const char *wrong)
{
	session->unclear = true;
	if (!flush_output())
		return false;
	if (source->name != NULL)
		fprintf(stderr, "%s: ", source->name);
	fprintf(stderr, "line %u: %s\n", source->lines, wrong);
	return true;
}

static bool take_line(struct session *session, const struct source *source, const struct line *line)
{
	switch (line->kind) {
	case LINE_START:
		try_start(session, line);
		return true;
	case LINE_RECORD:
		try_record(session, line);
		return true;
	case LINE_OWN:
		take_own(session, line->own);
		return true;
	case LINE_UNCLEAR:
		return complain(session, source, line->wrong.bytes);
	default:
		return true;
	}
}

static bool take_input(struct session *session, const struct source *source, const struct input_line *input)
{
	struct line line;
	parse_line(&line, input, own_words);
	return take_line(session, source, &line);
}

/* False at the end, or if the one or the other file fails, which session_read says. */
static bool next_input(struct source *source, struct input_line *input)
{
	if (source->by_hand)
		printf("> ");
	if (fflush(stdout) != 0 || !read_input(source->file, input, source->lines == 0))
		return false;
	source->lines++;
	if (!source->by_hand)
		show_input(input);
	return true;
}

bool session_read(struct session *session, struct source *source)
{
	struct input_line input;
	while (!session->left && next_input(source, &input))
		if (!take_input(session, source, &input))
			return false;
	if (ferror(source->file))
		return failed(source->name != NULL ? source->name : "standard input");
	if (source->by_hand && !session->left)
		putchar('\n');
	return flush_output();
}
