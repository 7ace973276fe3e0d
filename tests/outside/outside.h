/* Event sequences in text (README.md) over the library. */
#ifndef OUTSIDE_H
#define OUTSIDE_H

#include "dedakhumi.h"
#include "text.h"

/* What the box shows after an event. */
struct box {
	uint8_t table[DEDAKHUMI_TABLE_LENGTH];
	uint8_t report[DEDAKHUMI_REPORT_LENGTH];
	struct dedakhumi_answer answer;
};

/* What is said about: the answer, the ended tasks, the states, the task named, the ACA. */
enum subject { ANSWER, ENDED, STATES, NAMED, ALLEGIANCE, SUBJECTS };

extern const char *const subject_words[SUBJECTS];
/* The text that a line about the subject has behind its word. */
void show(enum subject subject, const struct box *box, struct text *text);

#endif
