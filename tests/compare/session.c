#include "session.h"
#include "random.h"
#include "show.h"
#include "shrink.h"

#include <stdio.h>
#include <stdlib.h>

unsigned long session_times(const struct session *session, unsigned long times)
{
	double scaled = (double)times * session->factor;

	return scaled < 1 ? 1 : (unsigned long)scaled;
}

void session_begin_part(struct session *session, const char *part)
{
	session->part = part;
	printf("compare: %lu events, %lu tables, now %s\n", session->events, session->tables, part);
	fflush(stdout);
}

void session_part(struct session *session, const char *part, unsigned long times, void (*once)(struct session *session))
{
	session_begin_part(session, part);
	for (unsigned long left = session_times(session, times); left > 0; left--)
		once(session);
}

struct trial *session_new_trial(struct session *session)
{
	struct trial *trial = &session->trial;

	memset(trial, 0, offsetof(struct trial, steps));
	trial->table_length = TABLE_LENGTH;
	trial->report_length = REPORT_LENGTH;
	if (random_percent(&session->random, 25))
		trial->shift = random_below(&session->random, 16);
	return trial;
}

struct step *session_new_step(struct session *session)
{
	struct step *step = &session->trial.steps[session->trial.step_count++];

	memset(step, 0, sizeof *step);
	step->event_length = EVENT_LENGTH;
	/* A third each: zeros, FFh, random bytes. */
	step->fill = (uint8_t)random_below(&session->random, 3);
	if (step->fill > FILL_ONES)
		step->fill += (uint8_t)random_below(&session->random, 254);
	return step;
}

static void show_size(const struct trial *trial)
{
	printf("compare: shrunk to %zu events on ", trial->step_count);
	if (trial->table_length != TABLE_LENGTH)
		printf("%zu lent bytes\n", trial->table_length);
	else if (trial->starts)
		printf("a fresh table\n");
	else
		printf("a lent table of %d tasks\n", trial->table[HEADER_COUNT]);
}

static void give_up(struct session *session)
{
	struct trial *trial = &session->trial;

	printf("compare: a difference in %s, seed %llu, after %lu events and %lu tables; shrinking %zu events\n", session->part,
		(unsigned long long)session->seed, session->events, session->tables, trial->step_count);
	fflush(stdout);
	shrink(&session->run, trial);
	show_trial(trial);
	show_difference(&session->run, trial);
	show_size(trial);
	exit(1);
}

void session_reopen(struct session *session)
{
	session->trial.step_count = 0;
	if (!run_open(&session->run, &session->trial))
		give_up(session);
}

void session_open(struct session *session)
{
	if (!session->trial.starts)
		session->tables++;
	session_reopen(session);
}

void session_apply(struct session *session)
{
	session->events++;
	if (!run_step(&session->run, &session->trial, session->trial.step_count - 1))
		give_up(session);
}
