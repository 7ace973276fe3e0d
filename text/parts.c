#include "parts.h"

#include <ctype.h>
#include <string.h>

bool is_no(struct reading *reading, struct word word, const char *what)
{
	struct text *wrong = &reading->line->wrong;
	if (word.length == 0) {
		text_add(wrong, "the %s is missing", what);
	} else {
		add_word(wrong, word);
		text_add(wrong, " is no %s", what);
	}
	return false;
}

bool take_name(const char **at, const struct name *names, uint8_t *number)
{
	while (names->name != NULL && !take_phrase(at, names->name))
		names++;
	*number = names->number;
	return names->name != NULL;
}

bool read_no_more(struct reading *reading)
{
	struct word word = next_word(&reading->rest);
	if (word.length == 0)
		return true;
	add_word(&reading->line->wrong, word);
	text_add(&reading->line->wrong, " is too much");
	return false;
}

/* `last` is the last number that is right; those above it, up to the limit, may be tried. */
static bool read_number(struct reading *reading, struct word word, const char *what, uint64_t last, uint64_t limit,
	uint64_t *number)
{
	if (read_decimal(word, limit, number))
		return true;
	is_no(reading, word, what);
	text_add(&reading->line->wrong, ", which is 0 to %llu", (unsigned long long)last);
	if (last != limit)
		text_add(&reading->line->wrong, " (up to %llu may be tried)", (unsigned long long)limit);
	return false;
}

static bool read_nexus_number(struct reading *reading, struct word word)
{
	uint64_t number;
	bool read = read_number(reading, word, "nexus", DEDAKHUMI_NEXUSES - 1, (uint8_t)-1, &number);
	reading->fields.nexus = (uint8_t)number;
	return read;
}

static bool read_tag_number(struct reading *reading, struct word word)
{
	uint64_t number;
	bool read = read_number(reading, word, "tag", (dedakhumi_tag)-1, (dedakhumi_tag)-1, &number);
	reading->fields.tag = (dedakhumi_tag)number;
	return read;
}

bool read_nexus(struct reading *reading)
{
	return read_nexus_number(reading, next_word(&reading->rest));
}

bool read_task(struct reading *reading)
{
	struct word word = next_word(&reading->rest);
	const char *point = memchr(word.start, '.', word.length);
	if (point == NULL)
		return is_no(reading, word, "task");
	struct word nexus = {word.start, (size_t)(point - word.start)};
	struct word tag = {point + 1, word.length - nexus.length - 1};
	return read_nexus_number(reading, nexus) && read_tag_number(reading, tag);
}

bool read_policy(struct reading *reading)
{
	struct word word = next_word(&reading->rest);
	reading->line->kind = LINE_START;
	reading->right = "start 00 (or 01, 03, 04, 05, 07)";
	return read_hex(word, &reading->line->policy, 1) == 1 || is_no(reading, word, "policy of two hex digits");
}

static bool is_no_bytes(struct reading *reading, struct word word)
{
	if (!is_hex(word) || word.length % 2 != 0)
		return is_no(reading, word, "row of bytes in hex");
	text_add(&reading->line->wrong, "there are more than %d bytes", RECORD_ROOM);
	return false;
}

bool read_record(struct reading *reading)
{
	struct line *line = reading->line;
	reading->right = "two hex digits for each byte, as in 54 56 01 00 00 00 00 01; or a task, as in 0.1 S";
	for (struct word word = next_word(&reading->rest); word.length != 0; word = next_word(&reading->rest)) {
		size_t more = read_hex(word, line->record + line->length, RECORD_ROOM - line->length);
		if (more == 0)
			return is_no_bytes(reading, word);
		line->length += more;
	}
	return true;
}

bool begins_task(struct word word)
{
	return word.length != 0 && isdigit((unsigned char)word.start[0]) && memchr(word.start, '.', word.length) != NULL;
}

/* A word of letters alone may be meant as something else, if it is no whole bytes. */
bool begins_record(struct word word)
{
	return is_hex(word) && (word.length % 2 == 0 || isdigit((unsigned char)word.start[0]));
}
