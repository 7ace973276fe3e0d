#include "disk.h"

#include <string.h>

void disk_format(struct disk *disk)
{
	for (unsigned tile = 0; tile < DISK_TILES; tile++)
		disk->tiles[tile] = 0;
	disk->busy = 0;
}

bool disk_takes(struct disk *disk, uint8_t nexus, dedakhumi_tag tag)
{
	if (disk->busy == DEDAKHUMI_TASKS)
		return false;
	disk->at[disk->busy++] = (struct disk_task){nexus, tag};
	return true;
}

void disk_drops(struct disk *disk, uint8_t nexus, dedakhumi_tag tag)
{
	unsigned place = 0;
	while (place < disk->busy && (disk->at[place].nexus != nexus || disk->at[place].tag != tag))
		place++;
	if (place == disk->busy)
		return;
	disk->busy--;
	memmove(disk->at + place, disk->at + place + 1, (disk->busy - place) * sizeof disk->at[0]);
}

int disk_carry_out(struct disk *disk, const struct wish *wish)
{
	int *tile = &disk->tiles[wish->tile % DISK_TILES];
	if (wish->action == ACTION_FILL)
		*tile = NO_READING;
	if (wish->action == ACTION_WRITE)
		*tile = wish->reading;
	return *tile;
}
