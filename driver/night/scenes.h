/* The scenes of the harvest night, in their order. */
#ifndef SCENES_H
#define SCENES_H

#include "world.h"

/* evening.c */
void scene_power_on(struct world *world);
void scene_tile(struct world *world);
void scene_heads_of_queue(struct world *world);
/* traffic.c */
void scene_traffic(struct world *world);
void scene_full(struct world *world);
/* allegiance.c */
void scene_allegiance(struct world *world);
void scene_nexus_loss(struct world *world);
/* aborts.c */
void scene_aborts(struct world *world);
void scene_host_errors(struct world *world);
void scene_resets(struct world *world);
/* mistakes.c */
void scene_driver_errors(struct world *world);
void scene_damaged_table(const struct world *world);
/* depots.c: boxes of other depots, with other policies */
void scene_other_depots(void);
/* refused.c: the same */
void scene_refused_commands(void);
/* busy.c: the same */
void scene_busy_disk(void);

#endif
