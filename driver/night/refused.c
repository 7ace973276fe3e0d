/* Boxes of other depots, where a command that is refused sets up an ACA, and may take others with it. */
#include "commands.h"
#include "scenes.h"
#include "work.h"

enum { NORTH_MAPPER = 0, SOUTH_MAPPER = 1, KERNEL = 7 };

/* The disk has a task of each of two hosts; the first command of a third is told of the power on, with NACA 1. The turn is the one before. */
static struct dedakhumi_turn refuse_beside_others(struct world *world)
{
	world_command(world, SOUTH_MAPPER, write_of(2, 51));
	world_command(world, KERNEL, read_of(3));
	world_commands_again(world);
	world_run_side_by_side(world);
	struct dedakhumi_turn turn = port_turn(&world->box.port);
	world_command(world, NORTH_MAPPER, with_naca(write_of(1, 50)));
	return turn;
}

static void clear_and_go_on(struct world *world)
{
	box_apply(&world->box, dedakhumi_function_event(NORTH_MAPPER, DEDAKHUMI_FUNCTION_CLEAR_ACA));
	world_commands_again(world);
}

static void block_the_others(void)
{
	struct world world = {.faults = 0};
	if (!world_start(&world, DEDAKHUMI_POLICY_QERR_NONE))
		return;
	struct dedakhumi_turn early = refuse_beside_others(&world);
	world_disk_ends(&world, early.nexus, early.tag, DEDAKHUMI_STATUS_GOOD);
	world_command(&world, KERNEL, read_of(2));
	clear_and_go_on(&world);
	world_run_all(&world);
}

static void abort_the_others(uint8_t policy)
{
	struct world world = {.faults = 0};
	if (!world_start(&world, policy))
		return;
	refuse_beside_others(&world);
	world_command(&world, SOUTH_MAPPER, write_of(2, 51));
	clear_and_go_on(&world);
	world_command(&world, KERNEL, read_of(3));
	world_commands_again(&world);
	world_run_all(&world);
}

void scene_refused_commands(void)
{
	trace_title("16. Another depot: a first command with NACA 1 is told of the power on, and that sets up an ACA over the tasks at the disk");
	block_the_others();
	trace_title("17. Another depot, QERR 01b: a refused command takes all others with it, and so does the one that is told of that");
	abort_the_others(DEDAKHUMI_POLICY_QERR_ALL);
	trace_title("18. Another depot, QERR 01b with TAS: the others hear TASK ABORTED, and that is the end of it");
	abort_the_others(DEDAKHUMI_POLICY_QERR_ALL | DEDAKHUMI_POLICY_TAS);
}
