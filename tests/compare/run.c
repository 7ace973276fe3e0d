#define _DEFAULT_SOURCE
#include "run.h"
#include "random.h"
#include "room.h"

enum { OUTSIDE = 0xA5 };

static const char *const refused_by_both = "naming: answer to a table built well formed";

void run_prepare(struct run *run)
{
	run->sides[ARCHIVE] = (struct side){ dedakhumi_start, dedakhumi_apply, dedakhumi_name, NULL, NULL, NULL };
	run->sides[SECOND] = (struct side){ second_start, second_apply, second_name, NULL, NULL, NULL };
	room_watch();
	for (int side = 0; side < SIDE_COUNT; side++) {
		run->sides[side].table_room = room_make();
		run->sides[side].report_room = room_make();
		run->sides[side].event_room = room_make();
	}
}

const uint8_t *run_table(const struct run *run, const struct trial *trial)
{
	return room_lend(run->sides[ARCHIVE].table_room, trial->table_length, trial->shift);
}

/* Which side is being called, for when it doesn't return. */
static volatile int called;

static bool part(struct run *run, const char *place, long byte, unsigned archive, unsigned second)
{
	run->difference.place = place;
	run->difference.byte = byte;
	run->difference.archive = archive;
	run->difference.second = second;
	return false;
}

static bool part_in(struct run *run, enum buffer buffer, const char *place, long byte, unsigned archive, unsigned second)
{
	run->difference.buffer = buffer;
	return part(run, place, byte, archive, second);
}

/* Bytes are counted from the first lent one; those before it are negative. */
static bool same_room(struct run *run, enum buffer buffer, const char *place, const uint8_t *archive, const uint8_t *second, size_t first)
{
	if (memcmp(archive, second, ROOM_LENGTH) == 0)
		return true;
	for (size_t byte = 0; byte < ROOM_LENGTH; byte++)
		if (archive[byte] != second[byte])
			return part_in(run, buffer, place, (long)byte - (long)first, archive[byte], second[byte]);
	return true;
}

static bool same_answer(struct run *run)
{
	static const char *const places[] = { "answer", "status", "key", "code", "qualifier", "ended count" };
	uint8_t archive[sizeof(struct dedakhumi_answer)], second[sizeof(struct dedakhumi_answer)];

	memcpy(archive, &run->difference.answers[ARCHIVE], sizeof archive);
	memcpy(second, &run->difference.answers[SECOND], sizeof second);
	for (size_t field = 0; field < sizeof archive; field++)
		if (archive[field] != second[field])
			return part(run, places[field], -1, archive[field], second[field]);
	return true;
}

static bool same_turn(struct run *run)
{
	const struct dedakhumi_turn *archive = &run->difference.turns[ARCHIVE];
	const struct dedakhumi_turn *second = &run->difference.turns[SECOND];

	if (archive->answer != second->answer)
		return part(run, "naming: answer", -1, archive->answer, second->answer);
	if (archive->found != second->found)
		return part(run, "naming: found", -1, archive->found, second->found);
	if (archive->nexus != second->nexus)
		return part(run, "naming: nexus", -1, archive->nexus, second->nexus);
	if (archive->tag != second->tag)
		return part(run, "naming: tag", -1, archive->tag, second->tag);
	return true;
}

/* A stretch of a room before and after; first is where the lent bytes begin. */
struct stretch {
	enum buffer buffer;
	const uint8_t *before;
	const uint8_t *after;
	size_t first;
	size_t length;
};

/* The sides agree when this is asked, so the archive's room stands for both. */
static bool left_alone(struct run *run, const char *place, struct stretch stretch, size_t from, size_t to)
{
	for (size_t byte = from; byte < to; byte++)
		if (stretch.before[byte] != stretch.after[byte])
			return part_in(run, stretch.buffer, place, (long)byte - (long)stretch.first, stretch.before[byte],
				stretch.after[byte]);
	return true;
}

static bool outside_left_alone(struct run *run, struct stretch stretch)
{
	return left_alone(run, "byte before a lent buffer, was and is", stretch, 0, stretch.first) &&
		left_alone(run, "byte after a lent buffer, was and is", stretch, stretch.first + stretch.length, ROOM_LENGTH);
}

static void name_turns(struct run *run, const struct trial *trial)
{
	for (int number = 0; number < SIDE_COUNT; number++) {
		struct side *side = &run->sides[number];

		called = number;
		run->difference.turns[number] = side->name(room_lend(side->table_room, trial->table_length, trial->shift),
			trial->table_length);
	}
}

static bool same_tables(struct run *run, const struct trial *trial)
{
	return same_room(run, TABLE_BUFFER, "table byte", run->sides[ARCHIVE].table_room, run->sides[SECOND].table_room,
		ROOM_LENGTH - trial->shift - trial->table_length);
}

static void lend_table(struct run *run, const struct trial *trial)
{
	for (int side = 0; side < SIDE_COUNT; side++) {
		uint8_t *room = run->sides[side].table_room;

		memset(room, OUTSIDE, ROOM_LENGTH);
		memcpy(room_lend(room, trial->table_length, trial->shift), trial->table, trial->table_length);
	}
}

static bool start_both(struct run *run, const struct trial *trial)
{
	uint8_t before[ROOM_LENGTH];
	size_t first = ROOM_LENGTH - trial->shift - trial->table_length;
	struct stretch table = { TABLE_BUFFER, before, run->sides[ARCHIVE].table_room, first, trial->table_length };

	memcpy(before, run->sides[ARCHIVE].table_room, ROOM_LENGTH);
	for (int number = 0; number < SIDE_COUNT; number++) {
		called = number;
		run->difference.starts[number] = run->sides[number].start(run->sides[number].table_room + first,
			trial->table_length, trial->policy);
	}
	if (run->difference.starts[ARCHIVE] != run->difference.starts[SECOND])
		return part(run, "start", -1, run->difference.starts[ARCHIVE], run->difference.starts[SECOND]);
	if (!same_tables(run, trial) || !outside_left_alone(run, table))
		return false;
	return run->difference.starts[ARCHIVE] == ANSWER_DONE ||
		left_alone(run, "byte of a table not started, was and is", table, 0, ROOM_LENGTH);
}

static bool touched_outside(struct run *run)
{
	return part(run, "touched what was not lent", -1, called == ARCHIVE, called == SECOND);
}

bool run_open(struct run *run, const struct trial *trial)
{
	memset(&run->difference, 0, sizeof run->difference);
	run->difference.step = NO_STEP;
	lend_table(run, trial);
	if (sigsetjmp(room_return, 0) != 0)
		return touched_outside(run);
	if (trial->starts && !start_both(run, trial))
		return false;
	name_turns(run, trial);
	if (!same_turn(run) || !same_tables(run, trial))
		return false;
	if (trial->well_formed && run->difference.turns[ARCHIVE].answer != ANSWER_DONE)
		return part(run, refused_by_both, -1, run->difference.turns[ARCHIVE].answer,
			run->difference.turns[SECOND].answer);
	return true;
}

bool run_refused_by_both(const struct run *run)
{
	return run->difference.place == refused_by_both;
}

static void fill_report(uint8_t *room, const struct trial *trial, uint8_t fill)
{
	uint8_t *report = room_lend(room, trial->report_length, trial->shift);
	uint64_t random = fill;

	memset(room, OUTSIDE, ROOM_LENGTH);
	if (fill == FILL_ZEROS || fill == FILL_ONES)
		memset(report, fill == FILL_ZEROS ? 0x00 : 0xFF, trial->report_length);
	else
		random_bytes(&random, report, trial->report_length);
}

static void apply_both(struct run *run, const struct trial *trial, const struct step *step)
{
	for (int number = 0; number < SIDE_COUNT; number++) {
		struct side *side = &run->sides[number];
		uint8_t *event = room_lend(side->event_room, step->event_length, 0);

		memcpy(event, step->event, step->event_length);
		called = number;
		run->difference.answers[number] = side->apply(
			room_lend(side->table_room, trial->table_length, trial->shift), trial->table_length,
			room_lend(side->report_room, trial->report_length, trial->shift), trial->report_length,
			event, step->event_length);
	}
}

static bool same_results(struct run *run, const struct trial *trial, const struct step *step)
{
	return same_answer(run) && same_tables(run, trial) &&
		same_room(run, REPORT_BUFFER, "report byte", run->sides[ARCHIVE].report_room, run->sides[SECOND].report_room,
			ROOM_LENGTH - trial->shift - trial->report_length) &&
		same_room(run, EVENT_BUFFER, "event byte", run->sides[ARCHIVE].event_room, run->sides[SECOND].event_room,
			ROOM_LENGTH - step->event_length);
}

/* Which buffers stay the same under which answer (RULES 18.3 and 19.1), and that nothing is written outside. */
static bool kept_as_ruled(struct run *run, struct stretch table, struct stretch report)
{
	uint8_t answer = run->difference.answers[ARCHIVE].answer;
	bool same_report = answer != ANSWER_DONE && answer != ANSWER_ENDED_AT_ENTRY && answer != ANSWER_REJECTED;
	bool same_table = same_report || answer == ANSWER_REJECTED;

	if (same_table && !left_alone(run, "byte of a table that stays, was and is", table, 0, ROOM_LENGTH))
		return false;
	if (same_report && !left_alone(run, "byte of a report that stays, was and is", report, 0, ROOM_LENGTH))
		return false;
	return outside_left_alone(run, table) && outside_left_alone(run, report);
}

bool run_step(struct run *run, const struct trial *trial, size_t number)
{
	const struct step *step = &trial->steps[number];
	uint8_t table[ROOM_LENGTH], report[ROOM_LENGTH];
	struct stretch tables = {
		TABLE_BUFFER, table, run->sides[ARCHIVE].table_room, ROOM_LENGTH - trial->shift - trial->table_length, trial->table_length
	};
	struct stretch reports = {
		REPORT_BUFFER, report, run->sides[ARCHIVE].report_room, ROOM_LENGTH - trial->shift - trial->report_length, trial->report_length
	};

	run->difference.step = number;
	if (sigsetjmp(room_return, 0) != 0)
		return touched_outside(run);
	fill_report(report, trial, step->fill);
	memcpy(run->sides[ARCHIVE].report_room, report, ROOM_LENGTH);
	memcpy(run->sides[SECOND].report_room, report, ROOM_LENGTH);
	memcpy(table, run->sides[ARCHIVE].table_room, ROOM_LENGTH);
	apply_both(run, trial, step);
	name_turns(run, trial);
	return same_results(run, trial, step) && kept_as_ruled(run, tables, reports) && same_turn(run);
}

bool run_whole(struct run *run, const struct trial *trial)
{
	if (!run_open(run, trial))
		return false;
	for (size_t step = 0; step < trial->step_count; step++)
		if (!run_step(run, trial, step))
			return false;
	return true;
}
