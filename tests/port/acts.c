#include "acts.h"

#include <stdio.h>

const struct sense write_error = {0x3, 0x0C, 0x00}, hardware_error = {0x4, 0x44, 0x00};

struct dedakhumi_answer command(struct watch *watch, uint8_t nexus, dedakhumi_tag tag, uint8_t attribute, uint8_t control)
{
	return box_command(&watch->box, nexus, tag, attribute, control, block_of(nexus, tag));
}

struct dedakhumi_answer good(struct watch *watch, uint8_t nexus, dedakhumi_tag tag)
{
	return box_complete(&watch->box, nexus, tag, DEDAKHUMI_STATUS_GOOD, (struct sense){0, 0, 0});
}

struct dedakhumi_answer bad(struct watch *watch, uint8_t nexus, dedakhumi_tag tag, struct sense sense)
{
	return box_complete(&watch->box, nexus, tag, DEDAKHUMI_STATUS_CHECK_CONDITION, sense);
}

struct dedakhumi_answer ends(struct watch *watch, uint8_t nexus, dedakhumi_tag tag, uint8_t status)
{
	return box_complete(&watch->box, nexus, tag, status, hardware_error);
}

struct dedakhumi_answer function(struct watch *watch, uint8_t nexus, uint8_t function)
{
	return box_apply(&watch->box, dedakhumi_function_event(nexus, function));
}

void accepts(struct watch *watch, uint8_t nexus, dedakhumi_tag tag, uint8_t attribute, uint8_t control)
{
	check_answer(watch, "a command that nothing speaks against is a task", command(watch, nexus, tag, attribute, control), 0, "");
}

void runs(struct watch *watch, const char *what, unsigned count, const char *asked)
{
	check_number(watch, what, box_run_enabled(&watch->box), count);
	check_asked(watch, what, asked);
}

void names(struct watch *watch, const char *what, bool found, const char *asked)
{
	check_number(watch, what, box_run_named(&watch->box), found);
	check_asked(watch, what, asked);
}

struct watch *begin(uint8_t policy)
{
	static struct watch watch;
	watch = (struct watch){.used = 0};
	check_number(&watch, "a good policy", watch_start(&watch, policy), 0);
	for (uint8_t nexus = 0; nexus < DEDAKHUMI_NEXUSES; nexus++) {
		char told[64];
		snprintf(told, sizeof told, "send %u.1 02h 6h/29h/00h; ", nexus);
		check_answer(&watch, "each host is told of the power on once", command(&watch, nexus, 1, SIMPLE, 0), 7, told);
	}
	return &watch;
}

struct watch *begin_aca(void)
{
	struct watch *watch = begin(DEDAKHUMI_POLICY_QERR_NONE);
	accepts(watch, 1, 2, SIMPLE, NACA);
	accepts(watch, 2, 2, SIMPLE, 0);
	accepts(watch, 7, 2, ORDERED, 0);
	runs(watch, "both SIMPLE tasks run side by side", 2, "run 1.2; run 2.2; ");
	check_answer(watch, "the host hears the disk's sense", bad(watch, 1, 2, write_error), 0, "let go 1.2; send 1.2 02h 3h/0Ch/00h; ");
	check_number(watch, "the faulted nexus", dedakhumi_faulted_nexus(watch->box.port.table), 1);
	return watch;
}
