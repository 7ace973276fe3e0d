/* What stands in a line behind the words that open it. */
#ifndef PARTS_H
#define PARTS_H

#include "lines.h"
#include "words.h"

/* A line that is being read: the rest of it, and what it has said so far. */
struct reading {
	const char *rest;
	struct line *line;
	struct dedakhumi_fields fields;
	const struct name *own;
	/* What would be right from here on; NULL for the forms that begin as the line does. */
	const char *right;
};

/* False, and "X is no tag" added to line->wrong, or "the tag is missing" where the line ends. */
bool is_no(struct reading *reading, struct word word, const char *what);

/* The number of the list's phrase that stands there, past which it goes; false if none does. */
bool take_name(const char **at, const struct name *names, uint8_t *number);

/* Each false, with the reason in line->wrong, if something else stands there. */
bool read_no_more(struct reading *reading);
bool read_nexus(struct reading *reading);
bool read_task(struct reading *reading);
bool read_policy(struct reading *reading);
bool read_record(struct reading *reading);
/* A task, and then its attribute and controls, or how it ended; the kind decides which, and both are taken where that is 0. */
bool read_task_event(struct reading *reading);

/* Whether a line without an opening word is one of these, by its first word. */
bool begins_task(struct word word);
bool begins_record(struct word word);

#endif
