/* The disk works, and brings back ends. */
#ifndef WORK_H
#define WORK_H

#include "world.h"

/* The task whose turn it is runs, after the completions that were held back, and what the disk was given first ends GOOD: that is the same
   task where no other was given before. False if there is nothing to run. */
bool world_run_next(struct world *world);
void world_run_all(struct world *world);
/* The disk is given every task that may run, and ends none of them yet. */
void world_run_side_by_side(struct world *world);
/* The disk ends this task. If it was not given it and the task is there, the box notes a stray end, which is a fault of the night. */
void world_disk_ends(struct world *world, uint8_t nexus, dedakhumi_tag tag, uint8_t status);

#endif
