/* What a driver sees of its own mistakes, and of a damaged table. */
#include <string.h>

#include "commands.h"
#include "scenes.h"
#include "work.h"

enum { YIELD_GATEWAY = 4, KERNEL = 7, STRANGER = DEDAKHUMI_NEXUSES, CDB_CONTROL_NACA = 0x04 };

/* The CDB's control byte has NACA in bit 2; in an event record it is bit 0, and bit 2 has to be 0. */
static void copy_control_byte(struct world *world)
{
	text_add(&world->detail, "with the CDB's control byte");
	box_command(&world->box, YIELD_GATEWAY, 9000, DEDAKHUMI_ATTRIBUTE_SIMPLE, CDB_CONTROL_NACA, NULL);
	world_command_tagged(world, YIELD_GATEWAY, 9000, with_naca(read_of(12)));
}

static void serve_a_stranger(struct world *world)
{
	box_command(&world->box, STRANGER, 1, DEDAKHUMI_ATTRIBUTE_SIMPLE, 0, NULL);
}

/* Called past port_apply, which cannot do it. */
static void lend_a_short_report(struct world *world)
{
	struct port *port = &world->box.port, before = *port;
	struct dedakhumi_event event = dedakhumi_completion_event(YIELD_GATEWAY, 9000, DEDAKHUMI_STATUS_GOOD);
	size_t short_length = sizeof port->report - 1;
	text_add(&world->detail, "(report of %zu bytes)", short_length);
	struct dedakhumi_answer answer =
		dedakhumi_apply(port->table, sizeof port->table, port->report, short_length, event.bytes, sizeof event.bytes);
	world_sees(world, &event, &answer);
	if (memcmp(&before, port, sizeof before) != 0)
		world->faults++;
	world_disk_ends(world, YIELD_GATEWAY, 9000, DEDAKHUMI_STATUS_GOOD);
}

void scene_driver_errors(struct world *world)
{
	trace_title("10. The driver errs: a bad event, a nexus above 7, a short report buffer; nothing changes, and each is mended");
	copy_control_byte(world);
	serve_a_stranger(world);
	world_run_side_by_side(world);
	lend_a_short_report(world);
}

/* The table has no task, so no request that the copy keeps is the night's. */
void scene_damaged_table(const struct world *world)
{
	struct world copy = *world;
	copy.box.context = &copy;
	trace_title("12. A bit falls over in a copy of the table: every event is refused, and the driver starts over");
	world_command(&copy, KERNEL, read_of(12));
	copy.box.port.table[DEDAKHUMI_TASK_OFFSET + DEDAKHUMI_AT_TASK_STATE] ^= 0x01;
	world_run_next(&copy);
	world_command(&copy, KERNEL, read_of(12));
	world_commands_again(&copy);
	copy.box.port.table[DEDAKHUMI_HEADER_OFFSET] ^= 0x80;
	world_command(&copy, KERNEL, read_of(12));
	world_command(&copy, KERNEL, read_of(12));
}
