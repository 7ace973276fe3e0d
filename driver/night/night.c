/* A harvest night in a depot: the scenes in their order, and what each host heard. Ends with 1 if something happened that must not, or if
   the trace could not be written; with 2 if it is called wrongly. */
#include <stdio.h>
#include <stdlib.h>

#include "scenes.h"

static const char total_format[] = "%-16s %5s %8s %5s %5s | %5s %5s %5s %5s %5s %6s\n";

static void print_host(const struct world *world, unsigned nexus)
{
	const struct host *host = &world->hosts.host[nexus];
	const unsigned numbers[] = {host->sent, host->accepted, host->ended, host->silent, host->heard[DEDAKHUMI_STATUS_GOOD],
		host->heard[DEDAKHUMI_STATUS_CHECK_CONDITION], host->heard[DEDAKHUMI_STATUS_BUSY], host->heard[DEDAKHUMI_STATUS_TASK_SET_FULL],
		host->heard[DEDAKHUMI_STATUS_ACA_ACTIVE], host->heard[DEDAKHUMI_STATUS_TASK_ABORTED]};
	printf("%-16s %5u %8u %5u %5u | %5u %5u %5u %5u %5u %6u\n", host_name(nexus), numbers[0], numbers[1], numbers[2], numbers[3],
		numbers[4], numbers[5], numbers[6], numbers[7], numbers[8], numbers[9]);
}

/* Each accepted command is either in the table or has ended, once. */
static bool is_balanced(const struct world *world)
{
	unsigned accepted = 0, ended = 0, left = (unsigned)dedakhumi_task_count(world->box.port.table);
	for (unsigned nexus = 0; nexus < DEDAKHUMI_NEXUSES; nexus++) {
		accepted += world->hosts.host[nexus].accepted;
		ended += world->hosts.host[nexus].ended;
	}
	printf("accepted %u = ended %u + left %u; events %u; faults %u\n", accepted, ended, left, world->trace.events, world->faults);
	return accepted == ended + left && left == count_requests(&world->box.kept);
}

static bool sum_up(const struct world *world)
{
	printf("\nWhat each host sent and heard (scenes 1 to 11)\n");
	printf(total_format, "", "sent", "accepted", "ended", "FFh", "00h", "02h", "08h", "28h", "30h", "40h");
	for (unsigned nexus = 0; nexus < DEDAKHUMI_NEXUSES; nexus++)
		print_host(world, nexus);
	return is_balanced(world) && world->faults == 0;
}

static bool play(void)
{
	struct world world = {.faults = 0};
	if (world_start(&world, 0x02) || !world_start(&world, DEDAKHUMI_POLICY_QERR_NONE))
		return false;
	scene_power_on(&world);
	scene_tile(&world);
	scene_heads_of_queue(&world);
	scene_traffic(&world);
	scene_full(&world);
	scene_allegiance(&world);
	scene_nexus_loss(&world);
	scene_aborts(&world);
	scene_host_errors(&world);
	scene_driver_errors(&world);
	scene_resets(&world);
	scene_damaged_table(&world);
	scene_other_depots();
	scene_refused_commands();
	scene_busy_disk();
	return sum_up(&world);
}

/* The last bytes are written only now, and an error of earlier ones is remembered by the stream alone. */
static bool is_written(void)
{
	bool failed_before = ferror(stdout) != 0;
	return fclose(stdout) == 0 && !failed_before;
}

int main(int argc, char **argv)
{
	(void)argv;
	if (argc > 1) {
		fprintf(stderr, "night: takes no argument, and was given %d; usage: night\n", argc - 1);
		return 2;
	}
	bool as_it_must = play();
	if (!is_written()) {
		fprintf(stderr, "night: the trace could not be written to standard output\n");
		return EXIT_FAILURE;
	}
	if (!as_it_must)
		fprintf(stderr, "night: something happened that must not; the trace says what\n");
	return as_it_must ? EXIT_SUCCESS : EXIT_FAILURE;
}
