/* Every table of up to two tasks over small ranges of each field, good or not, and small ranges of events on the good ones. */
#include "events.h"
#include "random.h"
#include "session.h"
#include "tables.h"

enum { SMALL_NEXUSES = 2, SMALL_TAGS = 2, SMALL_ATTRIBUTES = 5, SMALL_STATES = 5, THREES = 20000 };

/* One of the 100 task records of the small ranges. */
enum { SMALL_TASKS = SMALL_NEXUSES * SMALL_TAGS * SMALL_ATTRIBUTES * SMALL_STATES };

static void add_small_task(uint64_t *random, uint8_t *table, unsigned number)
{
	uint8_t nexus = number % SMALL_NEXUSES;
	uint8_t attribute = number / SMALL_NEXUSES % SMALL_ATTRIBUTES;
	tag_number tag = number / (SMALL_NEXUSES * SMALL_ATTRIBUTES) % SMALL_TAGS;
	uint8_t *task = table_add(table, nexus, attribute, (uint8_t)random_below(random, 2), tag);

	task[TASK_STATE] = (uint8_t)(number / (SMALL_NEXUSES * SMALL_ATTRIBUTES * SMALL_TAGS));
}

/* The table is lent anew before each event. */
static void apply_firsts(struct session *session, uint8_t kind, uint8_t nexus, uint8_t second)
{
	static const uint8_t firsts[] = { 0, 1, 2, 3, 4, 5, 6, STATUS_BUSY, STATUS_RESERVATION_CONFLICT };

	for (size_t number = 0; number < sizeof firsts; number++) {
		uint8_t first = firsts[number];
		bool tagged = kind == COMMAND || kind == COMPLETION || first < ABORT_TASK_SET;
		tag_number tag = (tag_number)random_below(&session->random, SMALL_TAGS + 1);

		session_reopen(session);
		event_write(session_new_step(session), kind, nexus, first, second, tagged ? tag : 0);
		session_apply(session);
	}
}

static void apply_small_events(struct session *session)
{
	for (uint8_t nexus = 0; nexus <= SMALL_NEXUSES; nexus++) {
		for (uint8_t second = 0; second < 4; second++)
			apply_firsts(session, COMMAND, nexus, second);
		for (uint8_t kind = COMPLETION; kind <= CONDITION; kind++)
			apply_firsts(session, kind, nexus, 0);
	}
}

static struct trial *new_small_trial(struct session *session, uint8_t aca)
{
	struct trial *trial = session_new_trial(session);
	uint64_t *random = &session->random;

	table_empty(trial->table, good_policy(random_below(random, GOOD_POLICIES)));
	trial->table[HEADER_ACA] = aca;
	trial->table[HEADER_RUN] = (uint8_t)random_below(random, RUN_LIMIT + 1);
	for (size_t nexus = 0; nexus < NEXUS_COUNT; nexus++)
		if (random_percent(random, 20))
			trial->table[nexus_offset(nexus) + NEXUS_PENDING] = (uint8_t)random_below(random, PENDING_ALL + 1);
	return trial;
}

/* A refused table needs one event to show it; one that is taken gets them all. */
static void compare_small_table(struct session *session)
{
	session_open(session);
	event_any(&session->random, session->trial.table, session_new_step(session), (struct range){ SMALL_NEXUSES, SMALL_TAGS });
	session_apply(session);
	if (session->run.difference.answers[ARCHIVE].answer != ANSWER_BAD_TABLE)
		apply_small_events(session);
}

static void compare_pairs(struct session *session, uint8_t aca, unsigned older)
{
	for (unsigned younger = 0; younger <= SMALL_TASKS; younger++) {
		struct trial *trial = new_small_trial(session, aca);

		if (older < SMALL_TASKS)
			add_small_task(&session->random, trial->table, older);
		if (younger < SMALL_TASKS)
			add_small_task(&session->random, trial->table, younger);
		compare_small_table(session);
	}
}

static void compare_threes(struct session *session)
{
	unsigned long times = session_times(session, THREES);

	for (unsigned long time = 0; time < times; time++) {
		struct trial *trial = new_small_trial(session, (uint8_t)random_below(&session->random, SMALL_NEXUSES + 1));

		for (unsigned task = 0; task < 3; task++)
			add_small_task(&session->random, trial->table, random_below(&session->random, SMALL_TASKS));
		compare_small_table(session);
	}
}

void compare_small_tables(struct session *session)
{
	session_begin_part(session, "small tables");
	for (uint8_t aca = 0; aca <= SMALL_NEXUSES; aca++)
		for (unsigned older = 0; older <= SMALL_TASKS; older++)
			compare_pairs(session, aca, older);
	compare_threes(session);
}
