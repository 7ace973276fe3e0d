/* A write fails and sets up an ACA; a cable is torn. */
#include "commands.h"
#include "scenes.h"
#include "work.h"

enum { SOUTH_MAPPER = 1, EAST_MAPPER = 2, WEST_MAPPER = 3, YIELD_GATEWAY = 4, WEATHER_GATEWAY = 5, OPERATOR = 6, KERNEL = 7 };

static void others_meet_the_aca(struct world *world)
{
	world_command(world, SOUTH_MAPPER, read_of(12));
	world_command(world, YIELD_GATEWAY, read_of(12));
	world_command(world, YIELD_GATEWAY, with_naca(read_of(12)));
	box_apply(&world->box, dedakhumi_function_event(OPERATOR, DEDAKHUMI_FUNCTION_CLEAR_ACA));
}

void scene_allegiance(struct world *world)
{
	trace_title("6. A write fails with NACA 1: an ACA for the south mapper, who repairs it and clears it");
	dedakhumi_tag failing = world_command(world, SOUTH_MAPPER, with_naca(write_of(13, 55)));
	dedakhumi_tag early = world_command(world, EAST_MAPPER, read_of(12));
	world_command(world, WEST_MAPPER, ordered(write_of(14, 66)));
	world_command(world, KERNEL, read_of(14));
	world_run_side_by_side(world);
	world_disk_ends(world, SOUTH_MAPPER, failing, DEDAKHUMI_STATUS_CHECK_CONDITION);
	world_disk_ends(world, EAST_MAPPER, early, DEDAKHUMI_STATUS_GOOD);
	others_meet_the_aca(world);
	world_command(world, SOUTH_MAPPER, repair_of(13));
	world_run_all(world);
	world_command(world, SOUTH_MAPPER, repair_of(13));
	world_command(world, SOUTH_MAPPER, repair_of(13));
	box_apply(&world->box, dedakhumi_function_event(SOUTH_MAPPER, DEDAKHUMI_FUNCTION_CLEAR_ACA));
	world_run_all(world);
	/* the host that asked for attribute ACA once too often asks again, now without an ACA */
	world_commands_again(world);
	world_run_all(world);
}

void scene_nexus_loss(struct world *world)
{
	trace_title("7. The weather gateway's cable is torn during its ACA: its tasks and its ACA go, and it is told when it comes back");
	dedakhumi_tag failing = world_command(world, WEATHER_GATEWAY, with_naca(write_of(15, 12)));
	world_command(world, WEATHER_GATEWAY, ordered(write_of(15, 13)));
	world_command(world, KERNEL, read_of(12));
	world_run_side_by_side(world);
	world_disk_ends(world, WEATHER_GATEWAY, failing, DEDAKHUMI_STATUS_CHECK_CONDITION);
	box_apply(&world->box, dedakhumi_nexus_loss_event(WEATHER_GATEWAY));
	world_run_all(world);
	world_command(world, WEATHER_GATEWAY, write_of(15, 13));
	world_commands_again(world);
	world_run_all(world);
}
