/* A session: lines tried on one table, from one input after the other. */
#ifndef SESSION_H
#define SESSION_H

#include <stdbool.h>
#include <stdio.h>

#include "dedakhumi.h"

/* `unclear`: a line was; `left`: by quit. */
struct session {
	uint8_t table[DEDAKHUMI_TABLE_LENGTH], report[DEDAKHUMI_REPORT_LENGTH];
	bool unclear, left;
};

/* `name` is for the messages, and NULL for standard input; `by_hand`: lines come from a person at a terminal. */
struct source {
	FILE *file;
	const char *name;
	unsigned lines;
	bool by_hand;
};

/* Each false, after a line on standard error, if standard output cannot be written, or the source cannot be read. */

/* A fresh table of policy 00h, and a line that says so. */
bool session_begin(struct session *session);
/* Tries the source's lines up to its end, or to a quit. */
bool session_read(struct session *session, struct source *source);

#endif
