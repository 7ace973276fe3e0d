/* What a line of text says: an event, a start or nothing. The one grammar of try and of tests/outside; add_forms writes it out. */
#ifndef LINES_H
#define LINES_H

#include "dedakhumi.h"
#include "input.h"
#include "names.h"
#include "text.h"

/* More than an event has: a record that is too long may be tried as well. */
enum { RECORD_ROOM = 64 };

enum line_kind { LINE_NOTHING, LINE_START, LINE_RECORD, LINE_OWN, LINE_UNCLEAR };

struct line {
	enum line_kind kind;
	/* of a start */
	uint8_t policy;
	/* an event's bytes, or those that were given in hex, right or wrong; zeros behind them */
	uint8_t record[RECORD_ROOM];
	size_t length;
	/* of a line that is the program's own: which one */
	uint8_t own;
	/* of an unclear line: the line, what is wrong with it, and what would have been right */
	struct text wrong;
};

/* `own` are words that are lines of the program's own, of which messages list the first of each number; NULL if it has none. */
void parse_line(struct line *line, const struct input_line *input, const struct name *own);
/* What a line may be, with a line of text for each form. */
void add_forms(struct text *text);

#endif
