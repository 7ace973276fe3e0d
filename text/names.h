/* The numbers of dedakhumi.h in words, for the programs that show them. */
#ifndef NAMES_H
#define NAMES_H

#include "dedakhumi.h"
#include "text.h"

/* A number and its name; a list of these ends with NULL. */
struct name {
	uint8_t number;
	const char *name;
};

/* "unknown" if the list does not have it. */
const char *name_in(const struct name *names, uint8_t number);

const char *answer_name(uint8_t answer);
const char *attribute_name(uint8_t attribute);
const char *state_name(uint8_t state);
const char *status_name(uint8_t status);
const char *function_name(uint8_t function);
const char *condition_name(uint8_t condition);
/* The code and qualifier of a pending bit's unit attention. */
const char *attention_name(uint8_t bit);
/* What has happened, in words: of a pending bit, and of the sense of a command that ended at entry. */
const char *attention_meaning(uint8_t bit);
const char *sense_meaning(uint8_t code, uint8_t qualifier);
/* The pending bit that is told by this sense; 0 if none is. */
uint8_t attention_bit(uint8_t code, uint8_t qualifier);
/* The event's fields in words. */
void add_event(struct text *text, const struct dedakhumi_event *event);

#endif
