/* Runs the sequences of the files that are named and compares what the box shows with what they say. */
#include <stdio.h>
#include <stdlib.h>
#include <string.h>

#include "lines.h"
#include "outside.h"

struct reading {
	const char *file;
	unsigned line;
	struct box box;
	bool started, said[SUBJECTS];
	unsigned sequences, states;
};

static void fail(const struct reading *reading, const char *why, const char *what)
{
	fprintf(stderr, "%s:%u: %s: %s\n", reading->file, reading->line, why, what);
	exit(1);
}

/* Nothing may go by unsaid: an event's answer, the states and the task named, and the ended tasks if there are any. */
static void check_all_said(const struct reading *reading)
{
	for (enum subject subject = ANSWER; subject < SUBJECTS; subject++) {
		bool needed = subject == ENDED ? reading->box.answer.ended != 0 : subject != ALLEGIANCE;
		if (reading->started && needed && !reading->said[subject])
			fail(reading, "the event before this has no line that says its", subject_words[subject]);
	}
}

static void forget_said(struct reading *reading)
{
	memset(reading->said, 0, sizeof reading->said);
}

/* A start is no event: it has no answer of six numbers, so that one is taken as said. */
static void take_start(struct reading *reading, uint8_t policy)
{
	struct box *box = &reading->box;
	check_all_said(reading);
	memset(box, 0, sizeof *box);
	if (dedakhumi_start(box->table, sizeof box->table, policy) != DEDAKHUMI_DONE)
		fail(reading, "the start was refused", "bad policy");
	forget_said(reading);
	reading->said[ANSWER] = reading->said[STATES] = reading->said[NAMED] = true;
	reading->started = true;
	reading->sequences++;
}

static void take_event(struct reading *reading, const struct line *line)
{
	struct box *box = &reading->box;
	check_all_said(reading);
	forget_said(reading);
	box->answer = dedakhumi_apply(box->table, sizeof box->table, box->report, sizeof box->report, line->record, line->length);
}

static void compare(struct reading *reading, enum subject subject, const char *expected)
{
	struct text shown = {.used = 0};
	show(subject, &reading->box, &shown);
	if (strcmp(shown.bytes, expected) != 0) {
		fprintf(stderr, "%s:%u: %s: the file says \"%s\", the box shows \"%s\"\n", reading->file, reading->line,
			subject_words[subject], expected, shown.bytes);
		exit(1);
	}
	reading->said[subject] = true;
	if (subject == STATES)
		reading->states += (unsigned)dedakhumi_task_count(reading->box.table);
}

static bool take_expectation(struct reading *reading, const char *line)
{
	for (enum subject subject = ANSWER; subject < SUBJECTS; subject++) {
		size_t length = strlen(subject_words[subject]);
		if (strncmp(line, subject_words[subject], length) == 0 && line[length] == ' ') {
			compare(reading, subject, line + length + 1);
			return true;
		}
	}
	return false;
}

static void take_line(struct reading *reading, const struct line *line)
{
	if (line->kind == LINE_UNCLEAR)
		fail(reading, "neither an expectation nor an event", line->wrong.bytes);
	if (line->kind == LINE_START)
		take_start(reading, line->policy);
	if (line->kind == LINE_RECORD)
		take_event(reading, line);
}

static void take_input(struct reading *reading, const struct input_line *input)
{
	struct line line;
	parse_line(&line, input, NULL);
	if (!reading->started && line.kind != LINE_START && line.kind != LINE_NOTHING)
		fail(reading, "something before any start", input->bytes);
	if (!take_expectation(reading, input->bytes + strspn(input->bytes, " \t")))
		take_line(reading, &line);
}

static void read_lines(struct reading *reading, FILE *file)
{
	struct input_line input;
	while (read_input(file, &input, reading->line == 0)) {
		reading->line++;
		take_input(reading, &input);
	}
	if (ferror(file))
		fail(reading, "can't be read", reading->file);
}

static void read_file(struct reading *reading, const char *name)
{
	FILE *file = fopen(name, "r");
	unsigned before = reading->sequences;
	reading->file = name;
	reading->line = 0;
	reading->started = false;
	if (file == NULL)
		fail(reading, "can't be opened", name);
	read_lines(reading, file);
	check_all_said(reading);
	if (reading->sequences == before)
		fail(reading, "no sequence in", name);
	fclose(file);
}

int main(int argc, char **argv)
{
	static struct reading reading;
	if (argc < 2) {
		fprintf(stderr, "usage: outside FILE...\n");
		return 2;
	}
	for (int i = 1; i < argc; i++)
		read_file(&reading, argv[i]);
	printf("outside: %u sequences, %u states as the documents say\n", reading.sequences, reading.states);
	return 0;
}
