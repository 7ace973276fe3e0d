/* Not of RULES 23.9: what comes between two turns and changes no wait. */
#ifndef WAITS_ASIDES_H
#define WAITS_ASIDES_H

#include "watch.h"

/* A HEAD OF QUEUE task of a nexus of its own comes in, if there is room, and ends without a turn: aborted, completed though it is not named, or with its
   nexus lost. Its completion after that is refused. An older HEAD OF QUEUE task has to be in the table, so that this one is not named. */
void play_aside(struct watch *watch);

#endif
