/* The eight pretended hosts: what each has sent, what it heard, and what it will send again. */
#ifndef HOSTS_H
#define HOSTS_H

#include "wishes.h"

#define HOST_AGAIN 16

struct host {
	dedakhumi_tag last_tag;
	/* `silent`: ends for which nothing was sent */
	unsigned sent, accepted, ended, silent;
	unsigned heard[256];
	struct wish again[HOST_AGAIN];
	unsigned again_count;
};

struct hosts {
	struct host host[DEDAKHUMI_NEXUSES];
};

const char *host_name(unsigned nexus);
dedakhumi_tag host_next_tag(struct host *host);
/* Whether a host sends the same command again after this end at entry: the box was busy, or had something else to tell first. */
bool is_worth_repeating(const struct dedakhumi_answer *answer);
/* False if the host has too much to repeat, and gives this one up. */
bool host_will_repeat(struct host *host, struct wish wish);
/* The wish that has waited longest to be sent again; false if there is none. */
bool host_repeats(struct host *host, struct wish *wish);

#endif
