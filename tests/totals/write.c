/* Writes a log in which much happens: build/tests/totals-log SEED RECORDS [SHORT]. The same numbers give the same bytes; SHORT is how many bytes of one more
   record end the log, 1 to 7. The task set is kept while it is written, so that most completions and aborts are of tasks that are there. */
#include <stdio.h>
#include <stdlib.h>

#include "../compare/random.h"
#include "layout.h"
#include "second.h"

/* How many events of a thousand are of each kind, and the rest are bad; of a hundred completions how many are CHECK CONDITION, of a hundred commands how many
   have NACA, and of a hundred events in an ACA how many clear it instead. */
struct phase {
	int commands, completions, overlaps, aborts, functions, conditions;
	unsigned checks, naca, clears;
};

enum { STEADY, FILLING, EMPTYING, FAULTED, UPSET, PHASES };

static const struct phase phases[PHASES] = {
	[STEADY] = {440, 470, 10, 30, 20, 5, 10, 30, 30},
	[FILLING] = {920, 50, 1, 4, 0, 0, 5, 30, 50},
	[EMPTYING] = {150, 780, 5, 40, 5, 0, 10, 30, 50},
	[FAULTED] = {500, 400, 15, 30, 30, 3, 60, 80, 4},
	[UPSET] = {450, 200, 20, 30, 150, 100, 20, 30, 20}
};

struct writer {
	uint64_t random;
	const struct phase *phase;
	unsigned left_of_phase;
	uint8_t table[TABLE_LENGTH], report[REPORT_LENGTH];
};

static uint8_t below(struct writer *writer, unsigned limit)
{
	return (uint8_t)random_below(&writer->random, limit);
}

static bool percent(struct writer *writer, unsigned share)
{
	return random_percent(&writer->random, share);
}

static dedakhumi_tag any_tag(struct writer *writer)
{
	return (dedakhumi_tag)random_next(&writer->random);
}

/* One that is there, whatever its state; any nexus and tag if none is, and now and then though one is. Here and below no two draws stand where C leaves their
   order open, or a seed would give other bytes by another compiler. */
static struct dedakhumi_task any_task(struct writer *writer)
{
	size_t count = dedakhumi_task_count(writer->table);
	struct dedakhumi_task absent = {0};
	if (count > 0 && !percent(writer, 4))
		return dedakhumi_task_at(writer->table, below(writer, (unsigned)count));
	absent.nexus = below(writer, NEXUS_COUNT);
	absent.tag = any_tag(writer);
	return absent;
}

static uint8_t any_attribute(struct writer *writer)
{
	if (percent(writer, 3))
		return below(writer, 256);
	return percent(writer, 50) ? SIMPLE : below(writer, ORDERED + 1);
}

static uint8_t any_control(struct writer *writer)
{
	uint8_t naca = percent(writer, writer->phase->naca) ? CONTROL_NACA : 0, exempt = percent(writer, 60) ? COMMAND_EXEMPT : 0;
	return naca | exempt;
}

/* In an ACA often the one that may enter. */
static struct dedakhumi_event command(struct writer *writer)
{
	uint8_t nexus = below(writer, NEXUS_COUNT), attribute = any_attribute(writer), control = any_control(writer);
	if (writer->table[HEADER_ACA] != 0 && percent(writer, 40)) {
		nexus = dedakhumi_faulted_nexus(writer->table);
		attribute = ACA;
	}
	return dedakhumi_command_event(nexus, any_tag(writer), attribute, control);
}

static struct dedakhumi_event overlapped_command(struct writer *writer)
{
	struct dedakhumi_task task = any_task(writer);
	uint8_t attribute = any_attribute(writer), control = any_control(writer);
	return dedakhumi_command_event(task.nexus, task.tag, attribute, control);
}

/* What is no CHECK CONDITION is mostly GOOD. */
static uint8_t any_status(struct writer *writer)
{
	if (percent(writer, writer->phase->checks))
		return STATUS_CHECK_CONDITION;
	if (percent(writer, 80))
		return STATUS_GOOD;
	return percent(writer, 50) ? STATUS_BUSY : STATUS_RESERVATION_CONFLICT;
}

/* Of the task whose turn it is, or of any, which then may be dormant or blocked. */
static struct dedakhumi_event completion(struct writer *writer)
{
	uint8_t status = any_status(writer);
	struct dedakhumi_turn turn = second_name(writer->table, sizeof writer->table);
	if (turn.found && percent(writer, 60))
		return dedakhumi_completion_event(turn.nexus, turn.tag, status);
	struct dedakhumi_task task = any_task(writer);
	return dedakhumi_completion_event(task.nexus, task.tag, status);
}

static struct dedakhumi_event abort_task(struct writer *writer)
{
	struct dedakhumi_task task = any_task(writer);
	return dedakhumi_abort_task_event(task.nexus, task.tag);
}

/* From ABORT TASK SET to an unknown one. */
static struct dedakhumi_event function(struct writer *writer)
{
	uint8_t nexus = below(writer, NEXUS_COUNT), first = ABORT_TASK_SET + below(writer, 5);
	return dedakhumi_function_event(nexus, first);
}

static struct dedakhumi_event condition(struct writer *writer)
{
	uint8_t nexus = below(writer, NEXUS_COUNT), first = POWER_ON + below(writer, 3);
	return first == NEXUS_LOSS ? dedakhumi_nexus_loss_event(nexus) : dedakhumi_reset_event(first);
}

/* With a status that the box has and no completion may have (RULES 16.2). */
static struct dedakhumi_event bad_completion(struct writer *writer)
{
	static const uint8_t statuses[] = {STATUS_TASK_SET_FULL, STATUS_ACA_ACTIVE, STATUS_TASK_ABORTED, STATUS_NONE_SENT};
	struct dedakhumi_task task = any_task(writer);
	uint8_t status = statuses[below(writer, sizeof statuses)];
	return dedakhumi_completion_event(task.nexus, task.tag, status);
}

static struct dedakhumi_event bad_event(struct writer *writer)
{
	struct dedakhumi_event event = command(writer);
	uint8_t place = below(writer, MARK_LENGTH);
	switch (below(writer, 6)) {
	case 0:
		event.bytes[place] ^= 1 + below(writer, 255);
		break;
	case 1:
		event.bytes[EVENT_NEXUS] = NEXUS_COUNT + below(writer, 256 - NEXUS_COUNT);
		break;
	case 2:
		event.bytes[EVENT_KIND] = percent(writer, 20) ? 0 : CONDITION + 1 + below(writer, 255 - CONDITION);
		break;
	case 3:
		/* a bit above those of a command */
		event.bytes[EVENT_SECOND] |= (uint8_t)(0x04 << below(writer, 6));
		break;
	case 4:
		event = bad_completion(writer);
		break;
	default:
		random_bytes(&writer->random, event.bytes, sizeof event.bytes);
	}
	return event;
}

/* From the faulted nexus, or from another, for which it is rejected. */
static struct dedakhumi_event clear_aca(struct writer *writer)
{
	uint8_t nexus = percent(writer, 80) ? dedakhumi_faulted_nexus(writer->table) : below(writer, NEXUS_COUNT);
	return dedakhumi_function_event(nexus, CLEAR_ACA);
}

/* Where nobody is there to end, mostly somebody enters. */
static struct dedakhumi_event completion_or_command(struct writer *writer)
{
	return dedakhumi_task_count(writer->table) == 0 && percent(writer, 90) ? command(writer) : completion(writer);
}

static bool chosen(int *choice, int share)
{
	*choice -= share;
	return *choice < 0;
}

static struct dedakhumi_event any_event(struct writer *writer)
{
	const struct phase *phase = writer->phase;
	int choice = (int)random_below(&writer->random, 1000);
	if (writer->table[HEADER_ACA] != 0 && percent(writer, phase->clears))
		return clear_aca(writer);
	if (chosen(&choice, phase->commands))
		return command(writer);
	if (chosen(&choice, phase->completions))
		return completion_or_command(writer);
	if (chosen(&choice, phase->overlaps))
		return overlapped_command(writer);
	if (chosen(&choice, phase->aborts))
		return abort_task(writer);
	if (chosen(&choice, phase->functions))
		return function(writer);
	if (chosen(&choice, phase->conditions))
		return condition(writer);
	return bad_event(writer);
}

static struct dedakhumi_event next_event(struct writer *writer)
{
	if (writer->left_of_phase == 0) {
		writer->phase = &phases[below(writer, PHASES)];
		writer->left_of_phase = 20 + random_below(&writer->random, 200);
	}
	writer->left_of_phase--;
	return any_event(writer);
}

static void write_log(struct writer *writer, uint64_t records, size_t short_piece)
{
	struct dedakhumi_event event;
	for (; records > 0; records--) {
		event = next_event(writer);
		second_apply(writer->table, sizeof writer->table, writer->report, sizeof writer->report, event.bytes, sizeof event.bytes);
		fwrite(event.bytes, 1, sizeof event.bytes, stdout);
	}
	event = next_event(writer);
	fwrite(event.bytes, 1, short_piece, stdout);
}

static bool read_number(const char *text, uint64_t *number)
{
	char *end;
	*number = strtoull(text, &end, 10);
	return *text >= '0' && *text <= '9' && *end == '\0';
}

int main(int argument_count, char **arguments)
{
	static struct writer writer;
	uint64_t records, short_piece = 0;
	bool right = (argument_count == 3 || argument_count == 4) && read_number(arguments[1], &writer.random) && read_number(arguments[2], &records);
	if (right && argument_count == 4)
		right = read_number(arguments[3], &short_piece) && short_piece > 0 && short_piece < EVENT_LENGTH;
	if (!right) {
		fprintf(stderr, "usage: totals-log SEED RECORDS [SHORT]\n");
		return 2;
	}
	second_start(writer.table, sizeof writer.table, 0);
	write_log(&writer, records, (size_t)short_piece);
	if (fflush(stdout) != 0 || ferror(stdout)) {
		perror("totals-log: standard output");
		return 1;
	}
	return 0;
}
