#include "input.h"

#include <string.h>

static void add_byte(struct input_line *line, int byte)
{
	if (line->length < INPUT_ROOM - 1)
		line->bytes[line->length++] = (char)byte;
	else
		line->cut = true;
}

/* Some editors put it before a text; it shows nothing, and is no part of the first word. */
static bool is_byte_order_mark(const struct input_line *line)
{
	static const char mark[] = "\xEF\xBB\xBF";
	return line->length == sizeof mark - 1 && memcmp(line->bytes, mark, line->length) == 0;
}

bool read_input(FILE *file, struct input_line *line, bool first)
{
	int byte = getc(file);
	bool any = byte != EOF;
	line->length = 0;
	line->cut = false;
	for (; byte != EOF && byte != '\n'; byte = getc(file)) {
		add_byte(line, byte);
		if (first && is_byte_order_mark(line)) {
			line->length = 0;
			first = false;
		}
	}
	if (line->length > 0 && line->bytes[line->length - 1] == '\r')
		line->length--;
	line->bytes[line->length] = '\0';
	return any && !ferror(file);
}
