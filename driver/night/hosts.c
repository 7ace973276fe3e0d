#include "hosts.h"

#include <string.h>

const char *host_name(unsigned nexus)
{
	static const char *const names[DEDAKHUMI_NEXUSES] = {
		"north mapper", "south mapper", "east mapper", "west mapper", "yield gateway", "weather gateway", "operator", "kernel"};
	return nexus < DEDAKHUMI_NEXUSES ? names[nexus] : "stranger";
}

dedakhumi_tag host_next_tag(struct host *host)
{
	return ++host->last_tag;
}

bool is_worth_repeating(const struct dedakhumi_answer *answer)
{
	switch (answer->status) {
	case DEDAKHUMI_STATUS_BUSY:
	case DEDAKHUMI_STATUS_TASK_SET_FULL:
	case DEDAKHUMI_STATUS_ACA_ACTIVE:
		return true;
	case DEDAKHUMI_STATUS_CHECK_CONDITION:
		return answer->key == DEDAKHUMI_SENSE_KEY_UNIT_ATTENTION;
	default:
		return false;
	}
}

bool host_will_repeat(struct host *host, struct wish wish)
{
	if (host->again_count == HOST_AGAIN)
		return false;
	host->again[host->again_count++] = wish;
	return true;
}

bool host_repeats(struct host *host, struct wish *wish)
{
	if (host->again_count == 0)
		return false;
	*wish = host->again[0];
	host->again_count--;
	memmove(host->again, host->again + 1, host->again_count * sizeof host->again[0]);
	return true;
}
