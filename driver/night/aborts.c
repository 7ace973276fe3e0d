/* Hosts abort, make mistakes, and reset the unit. */
#include "commands.h"
#include "scenes.h"
#include "work.h"

enum { NORTH_MAPPER = 0, EAST_MAPPER = 2, WEST_MAPPER = 3, YIELD_GATEWAY = 4, WEATHER_GATEWAY = 5, OPERATOR = 6, KERNEL = 7 };

/* SAM-4 has functions that this box does not. */
enum { FUNCTION_QUERY_TASK = 0x80, ATTRIBUTE_NONE = 3 };

void scene_aborts(struct world *world)
{
	trace_title("8. Aborts: one task, one host's tasks, everybody's; the others are told at their next command");
	world_command(world, NORTH_MAPPER, ordered(write_of(12, 72)));
	dedakhumi_tag unwanted = world_command(world, WEST_MAPPER, read_of(12));
	world_command(world, YIELD_GATEWAY, read_of(12));
	world_command(world, YIELD_GATEWAY, read_of(14));
	world_command(world, KERNEL, read_of(12));
	box_apply(&world->box, dedakhumi_abort_task_event(WEST_MAPPER, unwanted));
	world_disk_ends(world, WEST_MAPPER, unwanted, DEDAKHUMI_STATUS_GOOD);
	box_apply(&world->box, dedakhumi_abort_task_event(WEST_MAPPER, unwanted));
	box_apply(&world->box, dedakhumi_function_event(YIELD_GATEWAY, DEDAKHUMI_FUNCTION_ABORT_TASK_SET));
	world_command(world, OPERATOR, read_of(14));
	box_apply(&world->box, dedakhumi_function_event(OPERATOR, DEDAKHUMI_FUNCTION_CLEAR_TASK_SET));
	box_apply(&world->box, dedakhumi_function_event(OPERATOR, FUNCTION_QUERY_TASK));
	world_command(world, NORTH_MAPPER, ordered(write_of(12, 72)));
	world_command(world, KERNEL, read_of(14));
	world_command(world, OPERATOR, read_of(14));
	world_commands_again(world);
	world_run_all(world);
}

void scene_host_errors(struct world *world)
{
	trace_title("9. Hosts err: a tag used twice, an attribute that is none, attribute ACA without an ACA");
	world_command(world, EAST_MAPPER, read_of(12));
	dedakhumi_tag twice = world_command(world, EAST_MAPPER, ordered(write_of(14, 67)));
	world_command(world, KERNEL, read_of(12));
	world_command_tagged(world, EAST_MAPPER, twice, read_of(14));
	struct wish strange = read_of(12);
	strange.attribute = ATTRIBUTE_NONE;
	world_command(world, WEATHER_GATEWAY, strange);
	world_command(world, WEATHER_GATEWAY, repair_of(15));
	world_run_all(world);
}

void scene_resets(struct world *world)
{
	trace_title("11. Dawn: the operator resets the unit, then the bus is reset, which is told in the place of the first");
	world_command(world, NORTH_MAPPER, ordered(write_of(12, 73)));
	world_command(world, KERNEL, read_of(12));
	box_apply(&world->box, dedakhumi_function_event(OPERATOR, DEDAKHUMI_FUNCTION_LOGICAL_UNIT_RESET));
	world_command(world, KERNEL, read_of(12));
	world_commands_again(world);
	box_apply(&world->box, dedakhumi_reset_event(DEDAKHUMI_CONDITION_HARD_RESET));
	world_command(world, KERNEL, read_of(12));
	world_command(world, NORTH_MAPPER, ordered(write_of(12, 73)));
	world_commands_again(world);
	world_run_all(world);
}
