#include "asked.h"

struct asked_wish *ask(struct asked *asked, struct wish wish)
{
	for (unsigned place = 0; place < DEDAKHUMI_TASKS + 1; place++)
		if (!asked->places[place].under_way) {
			asked->places[place] = (struct asked_wish){.under_way = true, .wish = wish};
			return &asked->places[place];
		}
	return NULL;
}
