/* What is kept for each task in the table, found by nexus and tag: the table itself knows no command block. */
#ifndef REQUESTS_H
#define REQUESTS_H

#include "calls.h"

enum request_stage {
	/* the place is free */
	REQUEST_NONE,
	/* the disk has not been given it */
	REQUEST_WAITS,
	REQUEST_AT_DISK,
	/* the disk has ended it; its completion was answered 6 and is held back until the task is enabled */
	REQUEST_HELD_BACK
};

/* `status` and `sense` are the end that the disk brought, as it brought it. `request` is the driver's own, which is kept and never looked at:
   the command block, where its data goes, and so on. */
struct kept_request {
	enum request_stage stage;
	uint8_t nexus, status;
	dedakhumi_tag tag;
	struct sense sense;
	void *request;
};

struct kept_requests {
	struct kept_request places[DEDAKHUMI_TASKS];
};

/* False if all 64 places are used: the task set has no more tasks than that, so a driver that keeps and drops rightly never sees it. */
bool keep_request(struct kept_requests *kept, uint8_t nexus, dedakhumi_tag tag, void *request);
/* NULL if there is none. */
struct kept_request *find_request(struct kept_requests *kept, uint8_t nexus, dedakhumi_tag tag);
unsigned count_requests(const struct kept_requests *kept);

#endif
