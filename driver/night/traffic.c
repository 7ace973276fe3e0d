/* The busy hours: tiles come in and are read, then everybody at once. */
#include "commands.h"
#include "scenes.h"
#include "work.h"

enum { MAPPERS = 4, OPERATOR = 6, KERNEL = 7, FIRST_TILE = 20, TILES = 48 };

/* The same numbers on every machine: the trace is compared byte by byte. */
static unsigned next_number(uint32_t *seed, unsigned below)
{
	*seed = *seed * 1664525u + 1013904223u;
	return (*seed >> 16) % below;
}

/* The read is sent when the write is in the table; it is for the box that it doesn't overtake. */
static void send_tile(struct world *world, uint32_t *seed, unsigned tile)
{
	uint8_t mapper = (uint8_t)next_number(seed, MAPPERS);
	world_command(world, mapper, fill_of(tile));
	world_command(world, mapper, ordered(write_of(tile, 40 + (int)next_number(seed, 60))));
	world_command(world, KERNEL, read_of(tile));
}

/* Of a tile that was sent before. */
static void send_read(struct world *world, uint32_t *seed, unsigned last_tile)
{
	unsigned tile = FIRST_TILE + next_number(seed, last_tile - FIRST_TILE + 1);
	uint8_t reader = (uint8_t)next_number(seed, DEDAKHUMI_NEXUSES);
	world_command(world, reader, read_of(tile));
}

static void send_others(struct world *world, uint32_t *seed, unsigned last_tile)
{
	if (next_number(seed, 3) == 0)
		world_command(world, OPERATOR, urgent_inquiry());
	if (next_number(seed, 2) == 0)
		send_read(world, seed, last_tile);
}

static void run_some(struct world *world, unsigned turns)
{
	while (turns > 0 && world_run_next(world))
		turns--;
}

void scene_traffic(struct world *world)
{
	uint32_t seed = 9999;
	trace_title("4. The busy hours: tiles are filled, written and read, with urgent inquiries and other reads between");
	for (unsigned tile = FIRST_TILE; tile < FIRST_TILE + TILES; tile++) {
		send_tile(world, &seed, tile);
		send_others(world, &seed, tile);
		run_some(world, 2 + next_number(&seed, 4));
	}
	world_run_all(world);
}

void scene_full(struct world *world)
{
	trace_title("5. Everybody at once: the 65th task finds the set full, and enters when a place is free");
	for (unsigned tile = 0; dedakhumi_task_count(world->box.port.table) < DEDAKHUMI_TASKS; tile++)
		world_command(world, (uint8_t)(tile % DEDAKHUMI_NEXUSES), read_of(FIRST_TILE + tile % TILES));
	world_command(world, KERNEL, read_of(12));
	world_command(world, OPERATOR, urgent_inquiry());
	world_run_next(world);
	world_commands_again(world);
	world_run_next(world);
	world_commands_again(world);
	world_run_all(world);
}
