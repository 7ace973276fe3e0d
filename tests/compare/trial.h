/* A trial: a lent table and the events applied to it, in a form that can be run again and made smaller. */
#ifndef COMPARE_TRIAL_H
#define COMPARE_TRIAL_H

#include "layout.h"
#include "second.h"

enum {
	/* Lent buffers lie in a room of this many bytes, all of which is compared. */
	ROOM_LENGTH = 1024,
	EVENT_ROOM = 2 * EVENT_LENGTH,
	STEP_LIMIT = 512,
	FILL_ZEROS = 0,
	FILL_ONES = 1
};

struct step {
	uint8_t event[EVENT_ROOM];
	uint8_t event_length;
	/* What the report holds before: FILL_ZEROS, FILL_ONES, or else the seed of random bytes. */
	uint8_t fill;
};

struct trial {
	uint8_t table[ROOM_LENGTH];
	size_t table_length;
	size_t report_length;
	/* How far the lent buffers end before the end of their room: they may have any alignment. */
	size_t shift;
	/* The trial opens with start over the lent bytes. */
	bool starts;
	uint8_t policy;
	/* The table was built well formed, so both sides must take it. */
	bool well_formed;
	size_t step_count;
	struct step steps[STEP_LIMIT];
};

enum buffer { TABLE_BUFFER, REPORT_BUFFER, EVENT_BUFFER };

/* Where the two sides part. */
struct difference {
	/* The number of the step, or NO_STEP at the opening. */
	size_t step;
	const char *place;
	/* The byte for places that are in a buffer, else -1. */
	long byte;
	enum buffer buffer;
	unsigned archive;
	unsigned second;
	struct dedakhumi_answer answers[2];
	struct dedakhumi_turn turns[2];
	uint8_t starts[2];
};

#define NO_STEP SIZE_MAX

#endif
