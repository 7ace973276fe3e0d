#include "shrink.h"
#include "tables.h"

enum { FEW_EVENTS = 10 };

/* Puts the smaller trial in the place of the other if the sides still differ on it. */
static bool take_if_differs(struct run *run, struct trial *trial, const struct trial *smaller)
{
	if (run_whole(run, smaller))
		return false;
	*trial = *smaller;
	if (run->difference.step == NO_STEP)
		trial->step_count = 0;
	else
		trial->step_count = run->difference.step + 1;
	return true;
}

static bool delete_steps(struct run *run, struct trial *trial, size_t from, size_t length)
{
	static struct trial smaller;

	smaller = *trial;
	smaller.step_count -= length;
	memmove(smaller.steps + from, trial->steps + from + length, (smaller.step_count - from) * sizeof *smaller.steps);
	return take_if_differs(run, trial, &smaller);
}

static bool delete_pieces(struct run *run, struct trial *trial, size_t length)
{
	bool shrunk = false;
	size_t from = 0;

	while (from + length <= trial->step_count)
		if (delete_steps(run, trial, from, length))
			shrunk = true;
		else
			from += length;
	return shrunk;
}

static bool delete_events(struct run *run, struct trial *trial)
{
	bool shrunk = false;

	for (size_t length = trial->step_count; length > 0; length /= 2)
		shrunk |= delete_pieces(run, trial, length);
	return shrunk;
}

/* Only ever makes a byte smaller, so that shrinking ends. */
static bool lower_byte(struct run *run, struct trial *trial, size_t offset, uint8_t value)
{
	static struct trial smaller;

	if (((const uint8_t *)trial)[offset] <= value)
		return false;
	smaller = *trial;
	((uint8_t *)&smaller)[offset] = value;
	return take_if_differs(run, trial, &smaller);
}

static bool simplify_byte(struct run *run, struct trial *trial, size_t offset)
{
	return lower_byte(run, trial, offset, 0) || lower_byte(run, trial, offset, 1);
}

static bool simplify_step(struct run *run, struct trial *trial, size_t number)
{
	size_t step = offsetof(struct trial, steps) + number * sizeof(struct step);
	bool shrunk = simplify_byte(run, trial, step + offsetof(struct step, fill));

	for (size_t byte = EVENT_NEXUS; number < trial->step_count && byte < trial->steps[number].event_length; byte++)
		shrunk |= simplify_byte(run, trial, step + offsetof(struct step, event) + byte);
	return shrunk;
}

static bool simplify_steps(struct run *run, struct trial *trial)
{
	bool shrunk = false;

	for (size_t number = 0; number < trial->step_count; number++)
		shrunk |= simplify_step(run, trial, number);
	return shrunk;
}

/* A command that skips the unit attention spares the sequence the command that would take it. */
static void exempt_commands(struct run *run, struct trial *trial)
{
	static struct trial smaller;

	smaller = *trial;
	for (size_t number = 0; number < smaller.step_count; number++)
		if (smaller.steps[number].event[EVENT_KIND] == COMMAND)
			smaller.steps[number].event[EVENT_SECOND] |= COMMAND_EXEMPT;
	take_if_differs(run, trial, &smaller);
}

/* A start that was refused, or that doesn't count. */
static void drop_start(struct run *run, struct trial *trial)
{
	static struct trial smaller;

	smaller = *trial;
	smaller.starts = false;
	smaller.policy = 0;
	if (trial->starts)
		take_if_differs(run, trial, &smaller);
}

/* A fresh table is easier to read than a lent one. */
static void open_fresh(struct run *run, struct trial *trial)
{
	static struct trial smaller;

	smaller = *trial;
	smaller.starts = true;
	smaller.policy = trial->table[HEADER_POLICY];
	if (!trial->starts && trial->table_length == TABLE_LENGTH)
		take_if_differs(run, trial, &smaller);
}

static bool delete_task(struct run *run, struct trial *trial, size_t place)
{
	static struct trial smaller;
	uint8_t *task = smaller.table + task_offset(place);

	smaller = *trial;
	smaller.table[HEADER_COUNT]--;
	memmove(task, task + TASK_LENGTH, task_offset(TASK_LIMIT - 1) - task_offset(place));
	write_unused(smaller.table + task_offset(TASK_LIMIT - 1));
	if (take_if_differs(run, trial, &smaller))
		return true;
	if (smaller.table[HEADER_ACA] != 0)
		return false;
	/* Without ACA the younger tasks' states follow from who is older. */
	table_enable_eligible(smaller.table);
	return take_if_differs(run, trial, &smaller);
}

static bool delete_tasks(struct run *run, struct trial *trial)
{
	bool shrunk = false;

	if (trial->starts || trial->table_length != TABLE_LENGTH || trial->table[HEADER_COUNT] > TASK_LIMIT)
		return false;
	for (size_t place = trial->table[HEADER_COUNT]; place-- > 0;)
		shrunk |= delete_task(run, trial, place);
	return shrunk;
}

static bool restore_unused(struct run *run, struct trial *trial, size_t place)
{
	static struct trial smaller;

	smaller = *trial;
	write_unused(smaller.table + task_offset(place));
	if (memcmp(smaller.table, trial->table, TABLE_LENGTH) == 0)
		return false;
	return take_if_differs(run, trial, &smaller);
}

/* Damage in a record that doesn't count goes. */
static bool restore_all_unused(struct run *run, struct trial *trial)
{
	bool shrunk = false;

	for (size_t place = trial->table[HEADER_COUNT]; place < TASK_LIMIT; place++)
		shrunk |= restore_unused(run, trial, place);
	return shrunk;
}

/* Marks, the count and the nexus records' numbers stay: zeros there would only hide what is wrong. */
static bool is_field(size_t byte)
{
	if (byte < NEXUS_RECORDS)
		return byte >= HEADER_POLICY && byte != HEADER_COUNT;
	if (byte < TASK_RECORDS)
		return (byte - NEXUS_RECORDS) % NEXUS_LENGTH >= NEXUS_PENDING;
	return (byte - TASK_RECORDS) % TASK_LENGTH >= TASK_NEXUS;
}

static bool simplify_table(struct run *run, struct trial *trial)
{
	bool shrunk;

	if (trial->starts)
		return simplify_byte(run, trial, offsetof(struct trial, policy));
	if (trial->table_length != TABLE_LENGTH)
		return false;
	shrunk = restore_all_unused(run, trial);
	for (size_t byte = 0; byte < TABLE_LENGTH; byte++)
		if (is_field(byte))
			shrunk |= simplify_byte(run, trial, offsetof(struct trial, table) + byte);
	return shrunk;
}

static void shrink_as_it_is(struct run *run, struct trial *trial)
{
	bool shrunk = true;

	while (shrunk) {
		shrunk = delete_events(run, trial);
		shrunk |= delete_tasks(run, trial);
		shrunk |= simplify_table(run, trial);
		shrunk |= simplify_steps(run, trial);
	}
}

/* Where it takes many events to get there, the table before the last one is lent and that one is left. */
static void lend_last_table(struct run *run, struct trial *trial)
{
	static struct trial smaller;

	smaller = *trial;
	smaller.step_count--;
	run_whole(run, &smaller);
	memcpy(smaller.table, run_table(run, trial), trial->table_length);
	smaller.starts = false;
	smaller.steps[0] = trial->steps[trial->step_count - 1];
	smaller.step_count = 1;
	take_if_differs(run, trial, &smaller);
}

void shrink(struct run *run, struct trial *trial)
{
	static struct trial first;

	if (run_refused_by_both(run))
		return;
	/* What is tried below need not be well formed. */
	trial->well_formed = false;
	first = *trial;
	take_if_differs(run, trial, &first);
	drop_start(run, trial);
	open_fresh(run, trial);
	exempt_commands(run, trial);
	shrink_as_it_is(run, trial);
	if (trial->step_count > FEW_EVENTS) {
		lend_last_table(run, trial);
		shrink_as_it_is(run, trial);
	}
	/* The caller shows the difference of the smallest trial, not of the last one tried. */
	run_whole(run, trial);
}
