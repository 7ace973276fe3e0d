/* The hosts send commands. */
#ifndef COMMANDS_H
#define COMMANDS_H

#include "events.h"
#include "world.h"

/* With the host's next tag, which is returned. */
dedakhumi_tag world_command(struct world *world, uint8_t nexus, struct wish wish);
void world_command_tagged(struct world *world, uint8_t nexus, dedakhumi_tag tag, struct wish wish);
/* Each host sends what it was asked to send again, once. */
void world_commands_again(struct world *world);

#endif
