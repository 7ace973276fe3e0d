/* What to give to the disk. A driver calls one of these after each event. Both first give those completions again that were held back and
   whose tasks are enabled by now. */
#ifndef TURNS_H
#define TURNS_H

#include "box.h"

/* The task whose turn it is. False if there is none, or if the disk has it already. One that was given before goes on: a HEAD OF QUEUE task
   that comes meanwhile is given beside it. */
bool box_run_named(struct box *box);
/* Every enabled task that the disk does not have yet, oldest first. How many they were. */
unsigned box_run_enabled(struct box *box);

#endif
