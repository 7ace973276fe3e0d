#include "runs.h"

#include "asides.h"

enum { OTHERS_NEXUS = 0, HEADS_NEXUS = 1, NEWCOMER_NEXUS = 3, NEWCOMER_TAG = 0 };

/* The tasks of one nexus that are left, with the tags below that number; the oldest has the highest. */
struct line {
	uint8_t nexus;
	unsigned left;
};

static void let_newcomer_in(struct watch *watch)
{
	if (watch_holds(watch, NEWCOMER_NEXUS, NEWCOMER_TAG) || dedakhumi_task_count(watch->table) == DEDAKHUMI_TASKS)
		return;
	watch_command(watch, NEWCOMER_NEXUS, NEWCOMER_TAG, DEDAKHUMI_ATTRIBUTE_HEAD_OF_QUEUE);
}

/* A row and the turn behind it are five, so that each of three or four statuses comes at each place of them. No command has NACA, so there is no ACA. */
static uint8_t next_status(const struct run *run, const struct watch *watch)
{
	static const uint8_t statuses[] = {
		DEDAKHUMI_STATUS_GOOD, DEDAKHUMI_STATUS_BUSY, DEDAKHUMI_STATUS_RESERVATION_CONFLICT, DEDAKHUMI_STATUS_CHECK_CONDITION};
	bool ends_nobody = (run->policy & ~(unsigned)DEDAKHUMI_POLICY_TAS) == DEDAKHUMI_POLICY_QERR_NONE;
	unsigned taken = ends_nobody ? sizeof statuses : sizeof statuses - 1;
	return run->pressed ? statuses[watch->turns % taken] : statuses[0];
}

static void complete(const struct run *run, struct watch *watch, uint8_t nexus, dedakhumi_tag tag)
{
	if (run->pressed) {
		let_newcomer_in(watch);
		play_aside(watch);
	}
	watch_complete(watch, nexus, tag, next_status(run, watch));
}

static void overtake(const struct run *run, struct watch *watch, unsigned times)
{
	for (unsigned i = 0; i < times; i++) {
		let_newcomer_in(watch);
		watch_complete(watch, NEWCOMER_NEXUS, NEWCOMER_TAG, next_status(run, watch));
	}
}

static void enter(struct watch *watch, struct line line, uint8_t attribute)
{
	while (line.left > 0)
		watch_command(watch, line.nexus, (dedakhumi_tag)--line.left, attribute);
}

static void complete_oldest(const struct run *run, struct watch *watch, struct line *line, unsigned times)
{
	for (unsigned i = 0; i < times; i++)
		complete(run, watch, line->nexus, (dedakhumi_tag)--line->left);
}

/* A HEAD OF QUEUE task waits the longest where the row before it is full, and the others are older than those of its kind. */
void run_before(const struct run *run, struct watch *watch)
{
	struct line heads = {HEADS_NEXUS, run->older.heads}, others = {OTHERS_NEXUS, run->older.others};
	uint8_t of_others = run->pressed ? DEDAKHUMI_ATTRIBUTE_ORDERED : DEDAKHUMI_ATTRIBUTE_SIMPLE;
	watch_start(watch, run->policy);
	if (run->attribute == DEDAKHUMI_ATTRIBUTE_HEAD_OF_QUEUE) {
		overtake(run, watch, IN_A_ROW);
		enter(watch, others, of_others);
		enter(watch, heads, DEDAKHUMI_ATTRIBUTE_HEAD_OF_QUEUE);
	} else {
		enter(watch, heads, DEDAKHUMI_ATTRIBUTE_HEAD_OF_QUEUE);
		enter(watch, others, of_others);
	}
}

/* Newcomers that fill the first row; where the others fill the table, none can come. */
static unsigned newcomers_first(struct older older)
{
	if (older.heads >= IN_A_ROW || older.others == DEDAKHUMI_TASKS - 1)
		return 0;
	return IN_A_ROW - older.heads;
}

static void keep_other_waiting(const struct run *run, struct watch *watch)
{
	struct line heads = {HEADS_NEXUS, run->older.heads}, others = {OTHERS_NEXUS, run->older.others};
	complete_oldest(run, watch, &heads, heads.left);
	overtake(run, watch, newcomers_first(run->older));
	while (others.left > 0) {
		complete_oldest(run, watch, &others, 1);
		overtake(run, watch, IN_A_ROW);
	}
}

/* A row that is not full is the last: the awaited task goes behind it. */
static void keep_head_waiting(const struct run *run, struct watch *watch)
{
	struct line heads = {HEADS_NEXUS, run->older.heads}, others = {OTHERS_NEXUS, run->older.others};
	bool full = true;
	while (full && others.left > 0) {
		complete_oldest(run, watch, &others, 1);
		full = heads.left >= IN_A_ROW;
		complete_oldest(run, watch, &heads, full ? IN_A_ROW : heads.left);
	}
	complete_oldest(run, watch, &heads, heads.left);
}

void run_since(const struct run *run, struct watch *watch)
{
	if (run->attribute == DEDAKHUMI_ATTRIBUTE_HEAD_OF_QUEUE)
		keep_head_waiting(run, watch);
	else
		keep_other_waiting(run, watch);
}

void run_end(const struct run *run, struct watch *watch)
{
	complete(run, watch, AWAITED_NEXUS, AWAITED_TAG);
}
