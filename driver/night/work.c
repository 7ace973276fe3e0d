#include "work.h"

#include "events.h"
#include "turns.h"

static void carry_out(struct world *world, const struct wish *wish)
{
	int held = disk_carry_out(&world->disk, wish);
	add_wish(&world->detail, wish);
	if (wish->action <= ACTION_WRITE)
		text_add(&world->detail, ": %d", held);
	if (wish->action == ACTION_READ && held == NO_READING)
		world->faults++;
}

void world_disk_ends(struct world *world, uint8_t nexus, dedakhumi_tag tag, uint8_t status)
{
	const struct kept_request *kept = find_request(&world->box.kept, nexus, tag);
	/* MEDIUM ERROR, write error */
	struct sense sense = {0x3, 0x0C, 0x00};
	if (kept != NULL && status == DEDAKHUMI_STATUS_GOOD) {
		const struct asked_wish *asked = kept->request;
		carry_out(world, &asked->wish);
	}
	disk_drops(&world->disk, nexus, tag);
	box_complete(&world->box, nexus, tag, status, sense);
}

void world_run_side_by_side(struct world *world)
{
	box_run_enabled(&world->box);
}

bool world_run_next(struct world *world)
{
	const struct disk *disk = &world->disk;
	box_run_named(&world->box);
	if (disk->busy == 0)
		return false;
	world_disk_ends(world, disk->at[0].nexus, disk->at[0].tag, DEDAKHUMI_STATUS_GOOD);
	return true;
}

void world_run_all(struct world *world)
{
	while (world_run_next(world))
		continue;
}
