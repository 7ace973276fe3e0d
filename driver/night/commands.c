#include "commands.h"

static void hear_at_entry(struct host *host, uint8_t nexus, struct wish wish, const struct dedakhumi_answer *answer)
{
	if (is_worth_repeating(answer) && !host_will_repeat(host, wish))
		trace_note("the %s has too much to repeat, and gives this one up", host_name(nexus));
}

void world_command_tagged(struct world *world, uint8_t nexus, dedakhumi_tag tag, struct wish wish)
{
	struct host *host = &world->hosts.host[nexus];
	struct asked_wish *asked = ask(&world->asked, wish);
	if (asked == NULL) {
		world->faults++;
		return;
	}
	add_wish(&world->detail, &wish);
	struct dedakhumi_answer answer = box_command(&world->box, nexus, tag, wish.attribute, wish.control, asked);
	bool accepted = answer.answer == DEDAKHUMI_DONE;
	asked->under_way = accepted;
	host->sent++;
	host->accepted += accepted;
	if (answer.answer == DEDAKHUMI_ENDED_AT_ENTRY)
		hear_at_entry(host, nexus, wish, &answer);
}

dedakhumi_tag world_command(struct world *world, uint8_t nexus, struct wish wish)
{
	dedakhumi_tag tag = host_next_tag(&world->hosts.host[nexus]);
	world_command_tagged(world, nexus, tag, wish);
	return tag;
}

/* Only as many as wait now: what is refused once more waits for the next time. */
static void host_commands_again(struct world *world, uint8_t nexus)
{
	struct host *host = &world->hosts.host[nexus];
	struct wish wish;
	for (unsigned left = host->again_count; left > 0 && host_repeats(host, &wish); left--)
		world_command(world, nexus, wish);
}

void world_commands_again(struct world *world)
{
	for (uint8_t nexus = 0; nexus < DEDAKHUMI_NEXUSES; nexus++)
		host_commands_again(world, nexus);
}
