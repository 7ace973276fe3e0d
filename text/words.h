/* The words of a line, and what numbers they are. A word ends at a blank; a # and what is behind it is a comment. */
#ifndef WORDS_H
#define WORDS_H

#include <stdbool.h>
#include <stddef.h>
#include <stdint.h>

#include "text.h"

struct word {
	const char *start;
	size_t length;
};

/* The next word from `at` on, which is put behind it; of length 0 if there is none. */
struct word next_word(const char **at);
/* Upper and lower case are the same. */
bool same_word(struct word one, struct word other);
/* Goes past the phrase's words before its first number, if it has any and they stand there, and else stays. */
bool take_phrase(const char **at, const char *phrase);

/* False if it is something else than decimal digits, or above the limit. */
bool read_decimal(struct word word, uint64_t limit, uint64_t *number);
bool is_hex(struct word word);
/* How many bytes the word has with two hex digits each; 0 if it is no whole bytes, or if there is no room for them. */
size_t read_hex(struct word word, uint8_t *bytes, size_t room);

/* With control characters by their number: what is shown stays a line. */
void add_line(struct text *text, const char *bytes, size_t length);
/* For a message: the beginning of it, and every byte that is not ASCII by its number, since a no-break space looks like a blank. */
void add_quoted(struct text *text, const char *bytes, size_t length);
void add_word(struct text *text, struct word word);

#endif
