/* The forms that a line may have. */
#ifndef FORMS_H
#define FORMS_H

#include "parts.h"

/* Two ways to write it. The words before the first number open a line, and `read` reads what is behind them. The event has that kind, and
   `first` in its field of that name. */
struct form {
	const char *brief, *full;
	bool (*read)(struct reading *reading);
	uint8_t kind, first;
	const char *meaning;
};

/* The form that the line opens as, whose words are passed over; NULL if it opens as none. */
const struct form *take_form(struct reading *reading);
/* The forms that begin with the word; all of them, and the program's own words, if none does. */
void add_right_forms(struct text *text, struct word word, const struct name *own);

#endif
