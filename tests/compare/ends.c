/* Each status that a completion may have, and one that it may not, for each task of each table of three tasks, under each policy and run: RULES 6 asks for
   the task's attribute, state and NACA bit, whether it is named, QERR, TAS and the ACA. */
#include "events.h"
#include "session.h"
#include "tables.h"

/* 0.0, 1.1 and 0.2, the oldest first. The youngest is the ACA task of nexus 0 in the first shapes, and in the others each of the three attributes, as the
   others are. */
enum { TASKS = 3, ABSENT = TASKS, FAULTED = 0, ATTRIBUTES = 3, ACA_SHAPES = ATTRIBUTES * ATTRIBUTES, SHAPES = ACA_SHAPES + ACA_SHAPES * ATTRIBUTES };

static const uint8_t taken[] = { STATUS_GOOD, STATUS_CHECK_CONDITION, STATUS_BUSY, STATUS_RESERVATION_CONFLICT };

static uint8_t nexus_of(size_t place)
{
	return place % 2;
}

static uint8_t attribute_of(unsigned shape, size_t place)
{
	static const uint8_t youngest[] = { ACA, SIMPLE, HEAD_OF_QUEUE, ORDERED };

	switch (place) {
	case 0:
		return (uint8_t)(shape % ATTRIBUTES);
	case 1:
		return (uint8_t)(shape / ATTRIBUTES % ATTRIBUTES);
	default:
		return youngest[shape / ACA_SHAPES];
	}
}

static void block_enabled(uint8_t *table)
{
	table[HEADER_ACA] = FAULTED + 1;
	for (size_t place = 0; place < TASKS; place++) {
		uint8_t *task = table + task_offset(place);

		if (task[TASK_STATE] == ENABLED)
			task[TASK_STATE] = BLOCKED;
		if (task[TASK_ATTRIBUTE] == ACA)
			task[TASK_STATE] = ENABLED;
	}
}

/* The completed task alone has that NACA bit, so that no other's can pass for it. */
static void build_table(uint8_t *table, unsigned shape, size_t completed, bool naca)
{
	for (size_t place = 0; place < TASKS; place++)
		table_add(table, nexus_of(place), attribute_of(shape, place), (place == completed) == naca, (tag_number)place);
	table_enable_eligible(table);
	if (shape < ACA_SHAPES)
		block_enabled(table);
}

static void apply_end(struct session *session, size_t completed, uint8_t first)
{
	session_reopen(session);
	event_write(session_new_step(session), COMPLETION, nexus_of(completed), first, 0, (tag_number)completed);
	session_apply(session);
}

static void end_task(struct session *session, const uint8_t *empty, unsigned shape, size_t completed, bool naca)
{
	struct trial *trial = session_new_trial(session);

	memcpy(trial->table, empty, TABLE_LENGTH);
	build_table(trial->table, shape, completed, naca);
	trial->well_formed = true;
	session_open(session);
	for (size_t status = 0; status < sizeof taken; status++)
		apply_end(session, completed, taken[status]);
	apply_end(session, completed, random_bad_status(&session->random));
}

static void end_each_task(struct session *session, const uint8_t *empty, unsigned shape)
{
	for (size_t completed = 0; completed <= ABSENT; completed++)
		for (unsigned naca = 0; naca < 2; naca++)
			end_task(session, empty, shape, completed, naca);
}

void compare_every_end(struct session *session)
{
	uint8_t empty[TABLE_LENGTH];

	session_begin_part(session, "every end");
	for (unsigned policy = 0; policy < GOOD_POLICIES; policy++)
		for (uint8_t run = 0; run <= RUN_LIMIT; run++)
			for (unsigned shape = 0; shape < SHAPES; shape++) {
				table_empty(empty, good_policy(policy));
				empty[HEADER_RUN] = run;
				end_each_task(session, empty, shape);
			}
}
