/* Text put together piece by piece; what does not fit is cut off. */
#ifndef TEXT_H
#define TEXT_H

#include <stddef.h>

/* Room for a line about each of a full table's tasks. */
enum { TEXT_ROOM = 4096 };

struct text {
	char bytes[TEXT_ROOM];
	size_t used;
};

void text_add(struct text *text, const char *format, ...) __attribute__((format(printf, 2, 3)));

#endif
