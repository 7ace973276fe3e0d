#include "words.h"

#include <ctype.h>
#include <string.h>
#include <strings.h>

#define BLANKS " \t\r\v\f"

struct word next_word(const char **at)
{
	const char *start = *at + strspn(*at, BLANKS);
	struct word word = {start, strcspn(start, BLANKS "#")};
	*at = start + word.length;
	return word;
}

bool same_word(struct word one, struct word other)
{
	return one.length == other.length && strncasecmp(one.start, other.start, one.length) == 0;
}

static bool is_number(struct word word)
{
	return isdigit((unsigned char)word.start[0]);
}

bool take_phrase(const char **at, const char *phrase)
{
	const char *behind = *at;
	bool any = false;
	for (struct word wanted = next_word(&phrase); wanted.length != 0 && !is_number(wanted); wanted = next_word(&phrase)) {
		if (!same_word(next_word(&behind), wanted))
			return false;
		any = true;
	}
	*at = behind;
	return any;
}

bool read_decimal(struct word word, uint64_t limit, uint64_t *number)
{
	*number = 0;
	for (size_t i = 0; i < word.length; i++) {
		if (!isdigit((unsigned char)word.start[i]))
			return false;
		uint64_t digit = (uint64_t)(word.start[i] - '0');
		if (digit > limit || *number > (limit - digit) / 10)
			return false;
		*number = *number * 10 + digit;
	}
	return word.length != 0;
}

bool is_hex(struct word word)
{
	for (size_t i = 0; i < word.length; i++)
		if (!isxdigit((unsigned char)word.start[i]))
			return false;
	return word.length != 0;
}

static uint8_t hex_digit(char digit)
{
	static const char digits[] = "0123456789abcdef";
	return (uint8_t)(strchr(digits, tolower((unsigned char)digit)) - digits);
}

size_t read_hex(struct word word, uint8_t *bytes, size_t room)
{
	if (!is_hex(word) || word.length % 2 != 0 || word.length / 2 > room)
		return 0;
	for (size_t i = 0; i < word.length / 2; i++)
		bytes[i] = (uint8_t)(hex_digit(word.start[2 * i]) << 4 | hex_digit(word.start[2 * i + 1]));
	return word.length / 2;
}

/* Control characters by their number, and all bytes above `last`. */
static void add_bytes(struct text *text, const char *bytes, size_t length, unsigned char last)
{
	for (size_t i = 0; i < length; i++) {
		unsigned char byte = (unsigned char)bytes[i];
		bool as_it_is = byte == '\t' || (!iscntrl(byte) && byte <= last);
		text_add(text, as_it_is ? "%c" : "\\x%02X", byte);
	}
}

void add_line(struct text *text, const char *bytes, size_t length)
{
	add_bytes(text, bytes, length, 0xFF);
}

void add_quoted(struct text *text, const char *bytes, size_t length)
{
	enum { LIMIT = 60 };
	add_bytes(text, bytes, length < LIMIT ? length : LIMIT, '~');
	if (length > LIMIT)
		text_add(text, "...");
}

void add_word(struct text *text, struct word word)
{
	add_quoted(text, word.start, word.length);
}
