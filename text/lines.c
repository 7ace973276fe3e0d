#include "lines.h"

#include <string.h>

#include "forms.h"

/* False, with the reason, for a line that is no text. */
static bool check_text(struct line *line, const struct input_line *input)
{
	if (input->cut)
		text_add(&line->wrong, "the line is too long; right would be %d bytes at the most", INPUT_ROOM - 1);
	else if (memchr(input->bytes, '\0', input->length) != NULL)
		text_add(&line->wrong, "there is a NUL byte in it; right would be text alone");
	else
		return true;
	return false;
}

static bool read_by_form(struct reading *reading, const struct form *form)
{
	reading->fields.kind = form->kind;
	reading->fields.first = form->first;
	return form->read(reading);
}

static bool take_own(struct reading *reading)
{
	struct line *line = reading->line;
	if (!take_name(&reading->rest, reading->own, &line->own))
		return false;
	line->kind = LINE_OWN;
	reading->right = name_in(reading->own, line->own);
	return true;
}

static bool read_words(struct reading *reading, struct word first)
{
	if (take_own(reading))
		return true;
	const struct form *form = take_form(reading);
	if (form != NULL)
		return read_by_form(reading, form);
	if (begins_task(first))
		return read_task_event(reading);
	if (begins_record(first))
		return read_record(reading);
	text_add(&reading->line->wrong, "no line begins so");
	return false;
}

static void add_right(struct text *text, const struct reading *reading, struct word first)
{
	text_add(text, "; right would be ");
	if (reading->right != NULL)
		text_add(text, "%s", reading->right);
	else
		add_right_forms(text, first, reading->own);
}

/* What came in hex has filled the record before. */
static void put_event(struct line *line, const struct dedakhumi_fields *fields)
{
	struct dedakhumi_event event = dedakhumi_event_of(fields->kind, fields->nexus, fields->first, fields->second, fields->tag);
	if (line->length != 0)
		return;
	memcpy(line->record, event.bytes, sizeof event.bytes);
	line->length = sizeof event.bytes;
}

static bool read_line(struct line *line, const struct input_line *input, const struct name *own)
{
	static const struct name none[] = {{0, NULL}};
	struct reading reading = {.rest = input->bytes, .line = line, .own = own != NULL ? own : none};
	const char *start = input->bytes;
	struct word first = next_word(&start);
	line->kind = first.length == 0 ? LINE_NOTHING : LINE_RECORD;
	if (line->kind == LINE_NOTHING)
		return true;
	if (!read_words(&reading, first) || !read_no_more(&reading)) {
		add_right(&line->wrong, &reading, first);
		return false;
	}
	if (line->kind == LINE_RECORD)
		put_event(line, &reading.fields);
	return true;
}

void parse_line(struct line *line, const struct input_line *input, const struct name *own)
{
	memset(line, 0, sizeof *line);
	text_add(&line->wrong, "\"");
	add_quoted(&line->wrong, input->bytes, input->length);
	text_add(&line->wrong, "\": ");
	if (!check_text(line, input) || !read_line(line, input, own))
		line->kind = LINE_UNCLEAR;
}
