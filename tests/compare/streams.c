#include "streams.h"
#include "events.h"
#include "random.h"

static const struct range any_range = { NEXUS_COUNT, TAG_COUNT };
static const struct range few_range = { 2, 3 };
static const struct range some_range = { 3, 16 };

static uint8_t entering_attribute(uint64_t *random, unsigned simple_percent)
{
	return (uint8_t)(random_percent(random, simple_percent) ? SIMPLE : random_below(random, 3));
}

static void next_random_bytes(uint64_t *random, const uint8_t *table, struct step *step)
{
	(void)table;
	if (random_percent(random, 50))
		step->event_length = (uint8_t)random_below(random, EVENT_ROOM + 1);
	random_bytes(random, step->event, step->event_length);
	if (random_percent(random, 50))
		memcpy(step->event, EVENT_MARK, MARK_LENGTH);
}

/* Good events with one or two bytes spoilt: each clause of "bad event", and nexuses above 7. */
static void next_almost_good(uint64_t *random, const uint8_t *table, struct step *step)
{
	event_any(random, table, step, (struct range){ NEXUS_COUNT + 2, random_percent(random, 50) ? 1 : 4 });
	if (step->event[EVENT_KIND] == COMPLETION && random_percent(random, 30))
		step->event[EVENT_FIRST] = random_bad_status(random);
	for (unsigned spoilt = random_below(random, 3); spoilt > 0; spoilt--)
		step->event[random_below(random, EVENT_LENGTH)] =
			(uint8_t)random_below(random, random_percent(random, 75) ? 9 : 256);
	if (random_percent(random, 3))
		step->event_length = (uint8_t)random_below(random, EVENT_ROOM + 1);
}

static void next_uniform(uint64_t *random, const uint8_t *table, struct step *step)
{
	event_any(random, table, step, any_range);
}

static void next_collision(uint64_t *random, const uint8_t *table, struct step *step)
{
	unsigned choice = random_below(random, 100);

	if (choice < 55)
		event_command(random, step, few_range, (uint8_t)random_below(random, 5), 80);
	else if (choice < 85)
		event_completion(random, table, step, few_range, random_status(random, 70));
	else
		event_any(random, table, step, few_range);
}

/* An ACA keeps commands out, so a stream that wants many tasks clears it soon. */
static bool cleared_aca(uint64_t *random, const uint8_t *table, struct step *step, unsigned percent)
{
	if (table[HEADER_ACA] == 0 || !random_percent(random, percent))
		return false;
	event_write(step, MANAGEMENT, table[HEADER_ACA] - 1, CLEAR_ACA, 0, 0);
	return true;
}

static void next_full(uint64_t *random, const uint8_t *table, struct step *step)
{
	unsigned choice = random_below(random, 1000);
	unsigned enter = table[HEADER_COUNT] < 60 ? 940 : 450;

	if (cleared_aca(random, table, step, 60))
		return;
	if (choice < enter)
		event_command(random, step, any_range, entering_attribute(random, 60), 95);
	else if (choice < 950)
		event_completion(random, table, step, any_range, random_status(random, 100));
	else if (choice < 990)
		event_abort_task(random, table, step, any_range);
	else if (choice < 994)
		event_completion(random, table, step, any_range, STATUS_CHECK_CONDITION);
	else if (choice < 996)
		event_any(random, table, step, any_range);
	else
		event_management(random, step, any_range);
}

/* The sides named the same task before; with nothing to name it is a completion of 0.0. */
static void complete_named(const uint8_t *table, struct step *step, uint8_t status)
{
	struct dedakhumi_turn turn = second_name(table, TABLE_LENGTH);

	event_write(step, COMPLETION, turn.nexus, status, 0, turn.tag);
}

static void next_turn(uint64_t *random, const uint8_t *table, struct step *step)
{
	unsigned choice = random_below(random, 1000);

	if (cleared_aca(random, table, step, 60))
		return;
	if (choice < 480)
		complete_named(table, step, random_status(random, 97));
	else if (choice < 760)
		event_command(random, step, any_range, HEAD_OF_QUEUE, 95);
	else if (choice < 920)
		event_command(random, step, any_range, entering_attribute(random, 50), 95);
	else if (choice < 990)
		event_completion(random, table, step, any_range, random_status(random, 95));
	else
		event_any(random, table, step, any_range);
}

/* Commands under an ACA from the faulted nexus and others, with attribute ACA more often than not. */
static void command_under_aca(uint64_t *random, const uint8_t *table, struct step *step)
{
	uint8_t attribute = random_percent(random, 70) ? ACA : (uint8_t)random_below(random, 6);

	event_command(random, step, some_range, attribute, 85);
	if (random_percent(random, 60))
		step->event[EVENT_NEXUS] = table[HEADER_ACA] - 1;
}

static void next_under_aca(uint64_t *random, const uint8_t *table, struct step *step)
{
	unsigned choice = random_below(random, 100);

	if (choice < 40)
		command_under_aca(random, table, step);
	else if (choice < 60)
		complete_named(table, step, random_status(random, 40));
	else if (choice < 75)
		event_completion(random, table, step, some_range, random_status(random, 50));
	else if (choice < 85)
		event_write(step, MANAGEMENT, (uint8_t)random_below(random, 3), CLEAR_ACA, 0, 0);
	else if (choice < 92)
		event_abort_task(random, table, step, some_range);
	else if (choice < 98)
		event_management(random, step, some_range);
	else
		event_condition(random, step, some_range);
}

static void next_aca(uint64_t *random, const uint8_t *table, struct step *step)
{
	unsigned choice = random_below(random, 100);

	if (table[HEADER_ACA] != 0)
		next_under_aca(random, table, step);
	else if (choice < 70)
		event_command(random, step, some_range, entering_attribute(random, 30), 90);
	else if (choice < 90)
		event_completion(random, table, step, some_range, random_status(random, 30));
	else
		event_any(random, table, step, some_range);
}

/* By check 1, 3 or 4, where there is such a task, or a bit for that nexus. */
static void refused_command(uint64_t *random, const uint8_t *table, struct step *step)
{
	switch (random_below(random, 3)) {
	case 0:
		event_overlapped_command(random, table, step, any_range);
		break;
	case 1:
		event_command(random, step, any_range, entering_attribute(random, 60), 0);
		break;
	default:
		event_command(random, step, any_range, (uint8_t)(random_percent(random, 50) ? ACA : random_below(random, 256)), 50);
	}
}

/* A set grows until a command is refused, which may leave an ACA over 64 tasks; a full one needs no longer wait for that. */
static void next_refused(uint64_t *random, const uint8_t *table, struct step *step)
{
	unsigned refused = table[HEADER_COUNT] == TASK_LIMIT ? 60 : 3;

	if (cleared_aca(random, table, step, 25))
		return;
	if (table[HEADER_ACA] != 0)
		command_under_aca(random, table, step);
	else if (random_percent(random, refused))
		refused_command(random, table, step);
	else if (random_percent(random, 95))
		event_command(random, step, any_range, entering_attribute(random, 60), 100);
	else
		event_any(random, table, step, any_range);
}

/* Resets, losses and CLEAR TASK SET among commands that are told of them. */
static void next_pending(uint64_t *random, const uint8_t *table, struct step *step)
{
	unsigned choice = random_below(random, 100);

	if (choice < 60)
		event_command(random, step, any_range, entering_attribute(random, 70), 30);
	else if (choice < 70)
		event_condition(random, step, any_range);
	else if (choice < 85)
		event_management(random, step, any_range);
	else
		event_completion(random, table, step, any_range, random_status(random, 50));
}

/* Lent tables with few tasks left are soon used up: mostly ends. */
static void next_draining(uint64_t *random, const uint8_t *table, struct step *step)
{
	unsigned choice = random_below(random, 100);

	if (cleared_aca(random, table, step, 10))
		return;
	if (choice < 50)
		complete_named(table, step, random_status(random, 80));
	else if (choice < 80)
		event_completion(random, table, step, any_range, random_status(random, 80));
	else if (choice < 95)
		event_abort_task(random, table, step, any_range);
	else
		event_command(random, step, any_range, (uint8_t)random_below(random, 5), 50);
}

const struct stream streams[STREAM_COUNT] = {
	{ "random bytes", next_random_bytes },
	{ "almost good events", next_almost_good },
	{ "uniform good events", next_uniform },
	{ "collisions of nexus and tag", next_collision },
	{ "full sets", next_full },
	{ "turns", next_turn },
	{ "ACA", next_aca },
	{ "refused commands", next_refused },
	{ "pending bits", next_pending },
	{ "draining sets", next_draining }
};
