#include "requests.h"

bool keep_request(struct kept_requests *kept, uint8_t nexus, dedakhumi_tag tag, void *request)
{
	unsigned place = 0;
	while (place < DEDAKHUMI_TASKS && kept->places[place].stage != REQUEST_NONE)
		place++;
	if (place == DEDAKHUMI_TASKS)
		return false;
	kept->places[place] = (struct kept_request){.stage = REQUEST_WAITS, .nexus = nexus, .tag = tag, .request = request};
	return true;
}

struct kept_request *find_request(struct kept_requests *kept, uint8_t nexus, dedakhumi_tag tag)
{
	for (unsigned place = 0; place < DEDAKHUMI_TASKS; place++) {
		struct kept_request *here = &kept->places[place];
		if (here->stage != REQUEST_NONE && here->nexus == nexus && here->tag == tag)
			return here;
	}
	return NULL;
}

unsigned count_requests(const struct kept_requests *kept)
{
	unsigned used = 0;
	for (unsigned place = 0; place < DEDAKHUMI_TASKS; place++)
		used += kept->places[place].stage != REQUEST_NONE;
	return used;
}
