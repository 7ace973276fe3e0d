/* The pretended disk: one number for each map tile, and the tasks that it was given and has not ended. */
#ifndef DISK_H
#define DISK_H

#include "wishes.h"

#define DISK_TILES 256
/* A new tile is filled with this; it means no reading, and must not reach the kernel once the readings were sent. */
#define NO_READING (-9999)

struct disk_task {
	uint8_t nexus;
	dedakhumi_tag tag;
};

/* `at` has the tasks in the order in which they were given, the first `busy` places of it. */
struct disk {
	int tiles[DISK_TILES];
	struct disk_task at[DEDAKHUMI_TASKS];
	unsigned busy;
};

void disk_format(struct disk *disk);
/* False if there is no room, as when the disk has not dropped what it had to. */
bool disk_takes(struct disk *disk, uint8_t nexus, dedakhumi_tag tag);
/* The disk is at this task no longer. Nothing happens if it was not. */
void disk_drops(struct disk *disk, uint8_t nexus, dedakhumi_tag tag);
/* What the tile holds then. */
int disk_carry_out(struct disk *disk, const struct wish *wish);

#endif
