/* Plays the worst runs of RULES 23.9 for all older tasks that a table has room for, and each once more under pressure, and holds each wait, as bytes and
   answers show it, to the figure of RULES 23.8. `waits --tables` prints the tables of docs/WAITS.md instead. */
#include <stdio.h>
#include <string.h>

#include "operations.h"
#include "runs.h"
#include "tables.h"

static const uint8_t policies[] = {0x00, 0x01, 0x03, 0x04, 0x05, 0x07};
static const uint8_t attributes[] = {DEDAKHUMI_ATTRIBUTE_SIMPLE, DEDAKHUMI_ATTRIBUTE_ORDERED, DEDAKHUMI_ATTRIBUTE_HEAD_OF_QUEUE};
static const char *const names[] = {"SIMPLE", "ORDERED", "HEAD OF QUEUE"};

enum { KINDS = sizeof attributes, RUNS = 2 * KINDS };
/* a from 0 to 63, and for each b from 0 to 63 - a */
enum { PAIRS = DEDAKHUMI_TASKS * (DEDAKHUMI_TASKS + 1) / 2 };

struct totals {
	unsigned long pairs, runs, events, turns;
	/* the longest wait of each attribute */
	unsigned longest[KINDS];
};

static void hold_figures(const struct run *run, const struct watch *watch)
{
	unsigned exact = exact_figure(run->older, run->attribute), asked = asked_figure(run->older, run->attribute);
	watch_demand(watch, exact <= asked && asked <= first_figure(run->older), "no figure is above the coarser one");
}

static void play(const struct run *run, struct watch *watch)
{
	run_before(run, watch);
	watch_accept(watch, run->attribute);
	watch_demand(watch, watch->older.heads == run->older.heads && watch->older.others == run->older.others,
		"the table held as many of each as the run has");
	unsigned figure = exact_figure(watch->older, run->attribute);
	hold_figures(run, watch);
	run_since(run, watch);
	watch_demand(watch, watch->turns + 1 == figure, "the task's own turn is that of the figure");
	watch_demand(watch, watch->listed_at == 0 && watch_holds(watch, AWAITED_NEXUS, AWAITED_TAG), "the task waits up to the turn before it");
	run_end(run, watch);
	watch_demand(watch, watch->listed_at == figure && !watch_holds(watch, AWAITED_NEXUS, AWAITED_TAG), "the task ends by the figure");
}

static void count(struct totals *totals, const struct watch *watch, unsigned kind)
{
	totals->runs++;
	totals->events += watch->events;
	totals->turns += watch->turns;
	if (watch->listed_at > totals->longest[kind])
		totals->longest[kind] = watch->listed_at;
}

/* Each kind of run meets another policy with each pair: no policy has a say where every end is GOOD. */
static void play_pair(struct totals *totals, struct older older)
{
	static struct watch watch;
	for (unsigned i = 0; i < RUNS; i++) {
		struct run run = {older, attributes[i % KINDS], policies[(totals->pairs + i) % sizeof policies], i >= KINDS};
		snprintf(watch.run, sizeof watch.run, "%s behind a = %u and b = %u, policy %02Xh%s", names[i % KINDS], older.heads, older.others,
			run.policy, run.pressed ? ", pressed" : "");
		play(&run, &watch);
		count(totals, &watch, i % KINDS);
	}
	totals->pairs++;
}

static void play_all(struct totals *totals)
{
	struct older older = {0, 0};
	while (older.heads < DEDAKHUMI_TASKS) {
		play_pair(totals, older);
		older.others++;
		if (older.heads + older.others == DEDAKHUMI_TASKS)
			older = (struct older){older.heads + 1, 0};
	}
}

int main(int argument_count, char **arguments)
{
	struct totals totals = {0};
	bool prints = argument_count == 2 && strcmp(arguments[1], "--tables") == 0;
	if (argument_count > 1 && !prints) {
		fprintf(stderr, "usage: waits [--tables]\n");
		return 2;
	}
	if (prints) {
		print_tables();
		return 0;
	}
	play_all(&totals);
	if (totals.pairs != PAIRS || totals.runs != RUNS * totals.pairs) {
		fprintf(stderr, "waits: %s: it is not so that every pair is played with each kind of run\n", PLAYED);
		return 1;
	}
	printf("waits: %s: %lu pairs of a and b, %lu runs, %lu events, %lu turns waited, each wait that of the figure\n", PLAYED, totals.pairs, totals.runs,
		totals.events, totals.turns);
	printf("waits: %s: the longest wait of a SIMPLE task is %u turns, of an ORDERED one %u, of a HEAD OF QUEUE one %u\n", PLAYED, totals.longest[0],
		totals.longest[1], totals.longest[2]);
	return 0;
}
