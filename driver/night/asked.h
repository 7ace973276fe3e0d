/* The wishes that are under way: the box keeps pointers to them, and gives each back once. */
#ifndef ASKED_H
#define ASKED_H

#include "wishes.h"

struct asked_wish {
	bool under_way;
	struct wish wish;
};

/* One for each task, and one for the command that is being sent. */
struct asked {
	struct asked_wish places[DEDAKHUMI_TASKS + 1];
};

/* NULL if all places are used, as when the box has not given one back. */
struct asked_wish *ask(struct asked *asked, struct wish wish);

#endif
