/* Kinds of event streams. Each event is made with a look at the table as it stands. */
#ifndef COMPARE_STREAMS_H
#define COMPARE_STREAMS_H

#include "trial.h"

struct stream {
	const char *name;
	void (*next)(uint64_t *random, const uint8_t *table, struct step *step);
};

enum { STREAM_COUNT = 10 };

extern const struct stream streams[STREAM_COUNT];

#endif
