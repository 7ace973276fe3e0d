/* Boxes of other depots, whose disk ends tasks with BUSY and RESERVATION CONFLICT. */
#include "commands.h"
#include "scenes.h"
#include "work.h"

enum { NORTH_MAPPER = 0, SOUTH_MAPPER = 1, OPERATOR = 6, KERNEL = 7 };

/* The disk has a task of each of three hosts, one more with NACA 1, whose tag is returned, and an urgent inquiry: that has the turn, and ends
   BUSY. */
static dedakhumi_tag begin_busy(struct world *world)
{
	world_command(world, NORTH_MAPPER, write_of(1, 50));
	world_command(world, SOUTH_MAPPER, write_of(2, 51));
	world_command(world, KERNEL, read_of(3));
	world_commands_again(world);
	dedakhumi_tag careful = world_command(world, SOUTH_MAPPER, with_naca(write_of(4, 52)));
	dedakhumi_tag inquiry = world_command(world, OPERATOR, urgent_inquiry());
	world_run_side_by_side(world);
	world_disk_ends(world, OPERATOR, inquiry, DEDAKHUMI_STATUS_BUSY);
	return careful;
}

/* The writes that the disk did not do are sent again, and enter. */
static void end_alone(void)
{
	struct world world = {.faults = 0};
	if (!world_start(&world, DEDAKHUMI_POLICY_QERR_ALL))
		return;
	dedakhumi_tag careful = begin_busy(&world);
	world_disk_ends(&world, SOUTH_MAPPER, careful, DEDAKHUMI_STATUS_RESERVATION_CONFLICT);
	struct dedakhumi_turn turn = port_turn(&world.box.port);
	world_disk_ends(&world, turn.nexus, turn.tag, DEDAKHUMI_STATUS_BUSY);
	world_command(&world, NORTH_MAPPER, write_of(1, 50));
	world_command(&world, SOUTH_MAPPER, with_naca(write_of(4, 52)));
	world_command(&world, KERNEL, ordered(read_of(1)));
	world_run_all(&world);
}

static void repair_ends(struct world *world, uint8_t status)
{
	dedakhumi_tag repair = world_command(world, SOUTH_MAPPER, repair_of(4));
	world_run_side_by_side(world);
	world_disk_ends(world, SOUTH_MAPPER, repair, status);
}

static void repair_until_good(void)
{
	struct world world = {.faults = 0};
	if (!world_start(&world, DEDAKHUMI_POLICY_QERR_NONE))
		return;
	dedakhumi_tag careful = begin_busy(&world);
	world_disk_ends(&world, SOUTH_MAPPER, careful, DEDAKHUMI_STATUS_CHECK_CONDITION);
	repair_ends(&world, DEDAKHUMI_STATUS_BUSY);
	world_command(&world, KERNEL, read_of(4));
	repair_ends(&world, DEDAKHUMI_STATUS_RESERVATION_CONFLICT);
	repair_ends(&world, DEDAKHUMI_STATUS_GOOD);
	box_apply(&world.box, dedakhumi_function_event(SOUTH_MAPPER, DEDAKHUMI_FUNCTION_CLEAR_ACA));
	world_commands_again(&world);
	world_run_all(&world);
}

void scene_busy_disk(void)
{
	trace_title("19. Another depot, QERR 01b: the disk ends tasks BUSY and RESERVATION CONFLICT, which takes nobody along and sets up no ACA");
	end_alone();
	trace_title("20. Another depot: in an ACA a repair ends BUSY and another RESERVATION CONFLICT, and the ACA stands");
	repair_until_good();
}
