/* The box comes on; a tile is written and read; urgent inquiries meet a waiting read. */
#include "commands.h"
#include "scenes.h"
#include "work.h"

enum { NORTH_MAPPER = 0, EAST_MAPPER = 2, OPERATOR = 6, KERNEL = 7 };

void scene_power_on(struct world *world)
{
	trace_title("1. The box comes on: an INQUIRY enters at once, every other first command is told of the power on and is sent again");
	world_command(world, OPERATOR, urgent_inquiry());
	for (uint8_t nexus = 0; nexus < DEDAKHUMI_NEXUSES; nexus++)
		world_command(world, nexus, read_of(nexus));
	world_commands_again(world);
	world_run_all(world);
}

void scene_tile(struct world *world)
{
	trace_title("2. The tile: filled with -9999, then the readings in an ORDERED write, and a younger read that must not overtake it");
	world_command(world, EAST_MAPPER, read_of(0));
	world_command(world, NORTH_MAPPER, fill_of(12));
	world_command(world, NORTH_MAPPER, ordered(write_of(12, 71)));
	world_command(world, KERNEL, read_of(12));
	world_run_all(world);
}

void scene_heads_of_queue(struct world *world)
{
	trace_title("3. Urgent inquiries before each turn: the read that was there first ends at the fifth turn");
	world_command(world, KERNEL, read_of(12));
	for (unsigned turn = 0; turn < 5; turn++) {
		world_command(world, OPERATOR, urgent_inquiry());
		world_run_next(world);
	}
	world_run_all(world);
}
