/* The pretended world around a box of driver/port: eight hosts, a disk, and the trace of what happens. */
#ifndef WORLD_H
#define WORLD_H

#include "asked.h"
#include "box.h"
#include "disk.h"
#include "hosts.h"
#include "trace.h"

/* `detail` goes behind the words of the next event's line.
   `faults` counts what must not happen: the box's BOX_FAULT and BOX_STRAY_END, more at the disk than there are tasks, and -9999 read as a
   measurement. */
struct world {
	struct box box;
	struct hosts hosts;
	struct disk disk;
	struct asked asked;
	struct trace trace;
	struct text detail;
	unsigned faults;
};

/* False if the policy is refused. */
bool world_start(struct world *world, uint8_t policy);
/* The box tells this after each event; a scene that calls the library past the box tells it itself. */
void world_sees(struct world *world, const struct dedakhumi_event *event, const struct dedakhumi_answer *answer);

#endif
