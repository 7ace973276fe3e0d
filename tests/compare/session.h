/* A whole run of the program: the trial at hand, what was compared so far, and what happens at a difference. */
#ifndef COMPARE_SESSION_H
#define COMPARE_SESSION_H

#include "run.h"

struct session {
	struct run run;
	struct trial trial;
	uint64_t seed;
	uint64_t random;
	double factor;
	const char *part;
	unsigned long events;
	unsigned long tables;
};

/* How often to do what a default run does so many times. */
unsigned long session_times(const struct session *session, unsigned long times);
void session_begin_part(struct session *session, const char *part);
/* A part that is one thing, which a default run does so many times. */
void session_part(struct session *session, const char *part, unsigned long times, void (*once)(struct session *session));
/* An empty trial with buffers of the right lengths, for the caller to fill before it opens. */
struct trial *session_new_trial(struct session *session);
/* The next step of the trial, an event of zero bytes over a report with some filling, for the caller to fill before it applies. */
struct step *session_new_step(struct session *session);
/* All three shrink and show the trial and leave the program with 1 if the sides differ. */
void session_open(struct session *session);
/* Lends the same table again, without its steps, and doesn't count it again. */
void session_reopen(struct session *session);
void session_apply(struct session *session);

/* The parts, each in a file of its own. */
void compare_starts(struct session *session);
void compare_lengths(struct session *session);
void compare_every_event(struct session *session);
void compare_every_end(struct session *session);
void compare_small_tables(struct session *session);
void compare_streams(struct session *session);
void compare_damaged_tables(struct session *session);

#endif
