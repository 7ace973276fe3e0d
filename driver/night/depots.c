/* Boxes of other depots, where a failed task takes others with it. */
#include "commands.h"
#include "scenes.h"
#include "work.h"

enum { NORTH_MAPPER = 0, SOUTH_MAPPER = 1, KERNEL = 7 };

/* Each host's first command is told of the power on. */
static void greet(struct world *world)
{
	world_command(world, NORTH_MAPPER, write_of(1, 50));
	world_command(world, SOUTH_MAPPER, write_of(2, 51));
	world_command(world, KERNEL, read_of(3));
	world_commands_again(world);
}

static void fail_the_oldest(uint8_t policy)
{
	struct world world = {.faults = 0};
	if (!world_start(&world, policy))
		return;
	greet(&world);
	world_command(&world, NORTH_MAPPER, ordered(write_of(1, 52)));
	world_run_side_by_side(&world);
	struct dedakhumi_turn turn = port_turn(&world.box.port);
	world_disk_ends(&world, turn.nexus, turn.tag, DEDAKHUMI_STATUS_CHECK_CONDITION);
	world_command(&world, SOUTH_MAPPER, write_of(2, 51));
	world_command(&world, KERNEL, read_of(3));
}

void scene_other_depots(void)
{
	trace_title("13. Another depot, QERR 01b: a failed task takes all others with it, and their hosts are told at their next command");
	fail_the_oldest(DEDAKHUMI_POLICY_QERR_ALL);
	trace_title("14. Another depot, QERR 01b with TAS: the others hear TASK ABORTED, and no unit attention follows");
	fail_the_oldest(DEDAKHUMI_POLICY_QERR_ALL | DEDAKHUMI_POLICY_TAS);
	trace_title("15. Another depot, QERR 11b: only the failed task's own host loses its tasks");
	fail_the_oldest(DEDAKHUMI_POLICY_QERR_NEXUS);
}
