/* Starts over every policy, and buffers of wrong lengths. */
#include "events.h"
#include "random.h"
#include "session.h"
#include "tables.h"

/* The lengths that are 256 off are the right ones again in their low byte. */
static const size_t table_lengths[] = {
	0, 1, HEADER_LENGTH - 1, HEADER_LENGTH, TASK_RECORDS, TABLE_LENGTH - TASK_LENGTH, TABLE_LENGTH - 1, TABLE_LENGTH, TABLE_LENGTH + 1,
	TABLE_LENGTH + 2, TABLE_LENGTH + TASK_LENGTH - 1, TABLE_LENGTH + TASK_LENGTH, TABLE_LENGTH + 256, 1000
};
static const size_t report_lengths[] = {
	0, 1, ENDED_LENGTH, REPORT_LENGTH - 256, REPORT_LENGTH - ENDED_LENGTH, REPORT_LENGTH - 1, REPORT_LENGTH, REPORT_LENGTH + 1,
	REPORT_LENGTH + ENDED_LENGTH, REPORT_LENGTH + 256, 1000
};

enum {
	TABLE_LENGTHS = sizeof table_lengths / sizeof *table_lengths,
	REPORT_LENGTHS = sizeof report_lengths / sizeof *report_lengths,
	LENGTH_ROUNDS = 12,
	START_ROUNDS = 2
};

/* What lies past a whole table looks like more of it. */
static void lend_any_length(struct session *session, struct trial *trial, size_t length)
{
	for (size_t place = TASK_LIMIT; task_offset(place + 1) <= ROOM_LENGTH; place++)
		write_unused(trial->table + task_offset(place));
	table_random(&session->random, trial->table);
	trial->table_length = length;
}

static void start_every_policy(struct session *session, size_t length)
{
	for (unsigned policy = 0; policy < 256; policy++) {
		struct trial *trial = session_new_trial(session);

		lend_any_length(session, trial, length);
		if (random_percent(&session->random, 50))
			random_bytes(&session->random, trial->table, ROOM_LENGTH);
		trial->starts = true;
		trial->policy = (uint8_t)policy;
		session_open(session);
	}
}

static void start_every_length(struct session *session)
{
	for (size_t number = 0; number < TABLE_LENGTHS; number++)
		start_every_policy(session, table_lengths[number]);
}

void compare_starts(struct session *session)
{
	session_part(session, "starts", START_ROUNDS, start_every_length);
}

/* Half of the events are good, so that only the lengths speak against them. */
static void apply_every_length(struct session *session)
{
	const struct range range = { NEXUS_COUNT + 2, 4 };

	for (unsigned length = 0; length <= EVENT_ROOM; length++) {
		struct step *step = session_new_step(session);

		event_any(&session->random, session->trial.table, step, range);
		if (random_percent(&session->random, 25))
			step->event[random_below(&session->random, EVENT_LENGTH)] ^= 0x10;
		step->event_length = (uint8_t)length;
		session_apply(session);
	}
}

static void lend_every_report_length(struct session *session, size_t table_length)
{
	for (size_t number = 0; number < REPORT_LENGTHS; number++) {
		struct trial *trial = session_new_trial(session);

		lend_any_length(session, trial, table_length);
		if (random_percent(&session->random, 10))
			trial->table[random_below(&session->random, TABLE_LENGTH)] ^= 0x20;
		trial->report_length = report_lengths[number];
		session_open(session);
		apply_every_length(session);
	}
}

static void lend_every_length(struct session *session)
{
	for (size_t number = 0; number < TABLE_LENGTHS; number++)
		lend_every_report_length(session, table_lengths[number]);
}

void compare_lengths(struct session *session)
{
	session_part(session, "lengths", LENGTH_ROUNDS, lend_every_length);
}
