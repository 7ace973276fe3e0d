/* Drives a box of driver/port from outside, scene by scene, each with a box of its own. What is expected was written by hand from the words
   of dedakhumi.h. */
#include <stdio.h>
#include <stdlib.h>

#include "acts.h"
#include "statuses.h"
#include "usage.h"

static void power_on(void)
{
	static struct watch watch;
	check_number(&watch, "QERR 10b is a bad policy", watch_start(&watch, 0x02), 9);
	check_number(&watch, "a good policy", watch_start(&watch, 0x00), 0);
	check_answer(&watch, "an exempt command enters", command(&watch, 3, 1, HEAD_OF_QUEUE, EXEMPT), 0, "");
	check_answer(&watch, "another is told first", command(&watch, 3, 2, SIMPLE, 0), 7, "send 3.2 02h 6h/29h/00h; ");
	check_number(&watch, "what ended at entry is not kept", count_requests(&watch.box.kept), 1);
	names(&watch, "it is the turn of the only task", true, "run 3.1; ");
	check_answer(&watch, "a task that ended GOOD", good(&watch, 3, 1), 0, "let go 3.1; send 3.1 00h; ");
	check_number(&watch, "one turn of a HEAD OF QUEUE task", dedakhumi_run_of(watch.box.port.table), 1);
}

static void ordered_write(void)
{
	struct watch *watch = begin(DEDAKHUMI_POLICY_QERR_NONE);
	accepts(watch, 2, 2, SIMPLE, 0);
	accepts(watch, 0, 2, SIMPLE, 0);
	accepts(watch, 0, 3, ORDERED, 0);
	accepts(watch, 7, 2, SIMPLE, 0);
	runs(watch, "the ORDERED write waits for both older tasks, and the read for the write", 2, "run 2.2; run 0.2; ");
	runs(watch, "the disk is given a task once", 0, "");
	check_answer(watch, "the younger of the two ends first", good(watch, 0, 2), 0, "let go 0.2; send 0.2 00h; ");
	runs(watch, "the older one still stands before the write", 0, "");
	check_answer(watch, "then the older one", good(watch, 2, 2), 0, "let go 2.2; send 2.2 00h; ");
	runs(watch, "the write is alone", 1, "run 0.3; ");
	check_answer(watch, "the write ends", good(watch, 0, 3), 0, "let go 0.3; send 0.3 00h; ");
	runs(watch, "the read does not overtake it", 1, "run 7.2; ");
	check_answer(watch, "the read ends", good(watch, 7, 2), 0, "let go 7.2; send 7.2 00h; ");
	check_number(watch, "nothing is left", count_requests(&watch->box.kept), 0);
}

static void turns(void)
{
	struct watch *watch = begin(DEDAKHUMI_POLICY_QERR_NONE);
	accepts(watch, 6, 2, SIMPLE, 0);
	accepts(watch, 6, 3, HEAD_OF_QUEUE, 0);
	names(watch, "HEAD OF QUEUE goes before the older SIMPLE task", true, "run 6.3; ");
	names(watch, "the disk has the task whose turn it is", false, "");
	check_answer(watch, "the urgent one ends", good(watch, 6, 3), 0, "let go 6.3; send 6.3 00h; ");
	names(watch, "then the SIMPLE task", true, "run 6.2; ");
	check_answer(watch, "it ends", good(watch, 6, 2), 0, "let go 6.2; send 6.2 00h; ");
	names(watch, "it is nobody's turn", false, "");
	accepts(watch, 6, 4, SIMPLE, 0);
	names(watch, "a SIMPLE task alone", true, "run 6.4; ");
	accepts(watch, 6, 5, HEAD_OF_QUEUE, 0);
	names(watch, "a HEAD OF QUEUE task that comes later runs beside it", true, "run 6.5; ");
	check_answer(watch, "the one that ran goes on", good(watch, 6, 4), 0, "let go 6.4; send 6.4 00h; ");
	check_answer(watch, "and the other", good(watch, 6, 5), 0, "let go 6.5; send 6.5 00h; ");
}

static void blocked_task(void)
{
	struct watch *watch = begin_aca();
	check_answer(watch, "a blocked task's completion is refused, and nobody hears", good(watch, 2, 2), 6, "");
	runs(watch, "while it is blocked it is held back", 0, "");
	names(watch, "with an ACA and no ACA task it is nobody's turn", false, "");
	check_answer(watch, "the faulted nexus has to clear first", command(watch, 1, 3, SIMPLE, 0), 7, "send 1.3 30h; ");
	check_answer(watch, "others find the box busy", command(watch, 4, 2, SIMPLE, 0), 7, "send 4.2 08h; ");
	check_answer(watch, "others cannot clear", function(watch, 4, DEDAKHUMI_FUNCTION_CLEAR_ACA), 8, "");
	check_answer(watch, "the faulted one can", function(watch, 1, DEDAKHUMI_FUNCTION_CLEAR_ACA), 0, "");
	check_number(watch, "no faulted nexus", dedakhumi_faulted_nexus(watch->box.port.table), DEDAKHUMI_NEXUSES);
	runs(watch, "the completion is given again, and enables the ORDERED task", 1, "gives again; let go 2.2; send 2.2 00h; run 7.2; ");
	check_answer(watch, "which ends", good(watch, 7, 2), 0, "let go 7.2; send 7.2 00h; ");
}

static void blocked_task_failed(void)
{
	struct watch *watch = begin_aca();
	check_answer(watch, "a failure too is held back", bad(watch, 2, 2, hardware_error), 6, "");
	check_answer(watch, "the ACA is cleared", function(watch, 1, DEDAKHUMI_FUNCTION_CLEAR_ACA), 0, "");
	names(watch, "with the sense that came with it", true, "gives again; let go 2.2; send 2.2 02h 4h/44h/00h; run 7.2; ");
}

static void blocked_task_aborted(void)
{
	struct watch *watch = begin_aca();
	check_answer(watch, "the completion is held back", good(watch, 2, 2), 6, "");
	check_answer(watch, "an abort, and the disk has nothing to drop", box_apply(&watch->box, dedakhumi_abort_task_event(2, 2)), 0,
		"let go 2.2; ");
	check_answer(watch, "the ACA is cleared", function(watch, 1, DEDAKHUMI_FUNCTION_CLEAR_ACA), 0, "");
	runs(watch, "the completion is not given again", 1, "run 7.2; ");
}

/* The disk, or the queue before the box, brings an end twice, or one of a task that the disk was not given. */
static void stray_ends(void)
{
	struct watch *watch = begin(DEDAKHUMI_POLICY_QERR_NONE);
	accepts(watch, 0, 2, SIMPLE, 0);
	accepts(watch, 1, 2, ORDERED, 0);
	check_stray(watch, "an enabled task was not given to the disk", good(watch, 0, 2));
	check_stray(watch, "a dormant one neither, and its end is not held back", bad(watch, 1, 2, write_error));
	check_number(watch, "both are still there", (unsigned)dedakhumi_task_count(watch->box.port.table), 2);
	runs(watch, "the enabled one runs", 1, "run 0.2; ");
	check_answer(watch, "and ends", good(watch, 0, 2), 0, "let go 0.2; send 0.2 00h; ");
	check_answer(watch, "it is gone, and its second end is late", good(watch, 0, 2), 5, "");
	runs(watch, "the other runs", 1, "run 1.2; ");
	check_answer(watch, "it is aborted", box_apply(&watch->box, dedakhumi_abort_task_event(1, 2)), 0, "let go 1.2 at the disk; ");
	accepts(watch, 1, 2, SIMPLE, 0);
	check_stray(watch, "the end that the queue should have lost is not the newer task's", good(watch, 1, 2));
	runs(watch, "which runs", 1, "run 1.2; ");
	check_answer(watch, "and hears nothing of the stray end", bad(watch, 1, 2, hardware_error), 0, "let go 1.2; send 1.2 02h 4h/44h/00h; ");
}

static void stray_ends_in_aca(void)
{
	struct watch *watch = begin_aca();
	check_stray(watch, "the dormant task was not given to the disk", good(watch, 7, 2));
	check_answer(watch, "the blocked one was, and is held back", bad(watch, 2, 2, hardware_error), 6, "");
	check_stray(watch, "once", good(watch, 2, 2));
	check_answer(watch, "the ACA is cleared", function(watch, 1, DEDAKHUMI_FUNCTION_CLEAR_ACA), 0, "");
	check_stray(watch, "it is the box that gives it again", good(watch, 2, 2));
	runs(watch, "the first end holds, and the dormant task runs", 1, "gives again; let go 2.2; send 2.2 02h 4h/44h/00h; run 7.2; ");
}

static void aborts(void)
{
	struct watch *watch = begin(DEDAKHUMI_POLICY_QERR_NONE);
	accepts(watch, 3, 2, SIMPLE, 0);
	accepts(watch, 4, 2, SIMPLE, 0);
	accepts(watch, 4, 3, ORDERED, 0);
	runs(watch, "both SIMPLE tasks", 2, "run 3.2; run 4.2; ");
	check_answer(watch, "the disk drops an aborted task, and nothing is sent", box_apply(&watch->box, dedakhumi_abort_task_event(3, 2)), 0,
		"let go 3.2 at the disk; ");
	check_answer(watch, "its late completion is dropped", good(watch, 3, 2), 5, "");
	check_answer(watch, "only one of the two is at the disk", function(watch, 4, DEDAKHUMI_FUNCTION_ABORT_TASK_SET), 0,
		"let go 4.2 at the disk; let go 4.3; ");
	accepts(watch, 5, 2, SIMPLE, 0);
	accepts(watch, 5, 3, ORDERED, 0);
	runs(watch, "the SIMPLE task", 1, "run 5.2; ");
	check_answer(watch, "a tag used twice ends all tasks of that host", command(watch, 5, 3, SIMPLE, 0), 7,
		"let go 5.2 at the disk; let go 5.3; send 5.3 02h Bh/4Eh/00h; ");
	check_number(watch, "nothing is left", count_requests(&watch->box.kept), 0);
}

/* Others are told by TASK ABORTED, or without TAS by a unit attention. */
static void aborts_of_others(void)
{
	struct watch *watch = begin(DEDAKHUMI_POLICY_QERR_NONE | DEDAKHUMI_POLICY_TAS);
	accepts(watch, 1, 2, SIMPLE, 0);
	accepts(watch, 2, 2, ORDERED, 0);
	runs(watch, "the SIMPLE task", 1, "run 1.2; ");
	check_answer(watch, "the disk drops it before its host is told", function(watch, 6, DEDAKHUMI_FUNCTION_CLEAR_TASK_SET), 0,
		"let go 1.2 at the disk; send 1.2 40h; let go 2.2; send 2.2 40h; ");
	watch = begin(DEDAKHUMI_POLICY_QERR_ALL);
	accepts(watch, 0, 2, SIMPLE, 0);
	accepts(watch, 1, 2, SIMPLE, 0);
	runs(watch, "both", 2, "run 0.2; run 1.2; ");
	check_answer(watch, "a failed task takes the others with it", bad(watch, 0, 2, write_error), 0,
		"let go 0.2; send 0.2 02h 3h/0Ch/00h; let go 1.2 at the disk; ");
	check_number(watch, "the other is to hear of it", dedakhumi_pending_of(watch->box.port.table, 1), DEDAKHUMI_PENDING_COMMANDS_CLEARED);
	check_answer(watch, "at its next command", command(watch, 1, 3, SIMPLE, 0), 7, "send 1.3 02h 6h/2Fh/00h; ");
}

/* An ACA begins though no task has ended, and the disk has two. */
static void refused_command_blocks(void)
{
	struct watch *watch = begin(DEDAKHUMI_POLICY_QERR_NEXUS);
	accepts(watch, 1, 2, SIMPLE, 0);
	accepts(watch, 2, 2, SIMPLE, 0);
	runs(watch, "both", 2, "run 1.2; run 2.2; ");
	check_answer(watch, "no such attribute, and NACA", command(watch, 0, 2, NO_ATTRIBUTE, NACA), 7, "send 0.2 02h 5h/49h/00h; ");
	check_number(watch, "the faulted nexus", dedakhumi_faulted_nexus(watch->box.port.table), 0);
	check_number(watch, "nothing is kept for the command", count_requests(&watch->box.kept), 2);
	check_answer(watch, "the disk goes on, and its end is held back", good(watch, 1, 2), 6, "");
	check_answer(watch, "the other end too", good(watch, 2, 2), 6, "");
	runs(watch, "as long as the ACA lasts", 0, "");
	check_answer(watch, "it is cleared", function(watch, 0, DEDAKHUMI_FUNCTION_CLEAR_ACA), 0, "");
	check_answer(watch, "an abort by QERR takes the place of a held back end", command(watch, 1, 3, NO_ATTRIBUTE, 0), 7,
		"let go 1.2; send 1.3 02h 5h/49h/00h; ");
	runs(watch, "the other end is given again", 0, "gives again; let go 2.2; send 2.2 00h; ");
}

/* The report of an answer 7 lists tasks of others, before the command's own status is sent. */
static void refused_command_aborts(void)
{
	struct watch *watch = begin(DEDAKHUMI_POLICY_QERR_ALL);
	accepts(watch, 1, 2, SIMPLE, 0);
	accepts(watch, 0, 2, ORDERED, 0);
	runs(watch, "the SIMPLE task", 1, "run 1.2; ");
	check_answer(watch, "a refused command takes all with it", command(watch, 0, 3, NO_ATTRIBUTE, NACA), 7,
		"let go 1.2 at the disk; let go 0.2; send 0.3 02h 5h/49h/00h; ");
	check_number(watch, "the faulted nexus", dedakhumi_faulted_nexus(watch->box.port.table), 0);
	check_number(watch, "nothing is left", count_requests(&watch->box.kept), 0);
	check_number(watch, "the other is to hear of it", dedakhumi_pending_of(watch->box.port.table, 1), DEDAKHUMI_PENDING_COMMANDS_CLEARED);
	watch = begin(DEDAKHUMI_POLICY_QERR_ALL | DEDAKHUMI_POLICY_TAS);
	accepts(watch, 1, 2, SIMPLE, 0);
	accepts(watch, 0, 2, SIMPLE, 0);
	runs(watch, "both", 2, "run 1.2; run 0.2; ");
	check_answer(watch, "with TAS the other hears at once, as it does of a tag used twice", command(watch, 0, 2, SIMPLE, 0), 7,
		"let go 1.2 at the disk; send 1.2 40h; let go 0.2 at the disk; send 0.2 02h Bh/4Eh/00h; ");
}

static void full(void)
{
	struct watch *watch = begin(DEDAKHUMI_POLICY_QERR_NONE);
	for (uint8_t place = 0; place < DEDAKHUMI_TASKS; place++)
		accepts(watch, place % DEDAKHUMI_NEXUSES, (dedakhumi_tag)(100 + place), SIMPLE, 0);
	check_answer(watch, "the 65th", command(watch, 0, 2, SIMPLE, 0), 7, "send 0.2 28h; ");
	check_number(watch, "a request for each task", count_requests(&watch->box.kept), DEDAKHUMI_TASKS);
	check_number(watch, "a reset", function(watch, 0, DEDAKHUMI_FUNCTION_LOGICAL_UNIT_RESET).answer, 0);
	check_number(watch, "lets go of all", watch->gone, DEDAKHUMI_TASKS);
	check_number(watch, "and keeps none", count_requests(&watch->box.kept), 0);
}

static void damage(struct watch *watch)
{
	watch->box.port.table[DEDAKHUMI_HEADER_OFFSET] ^= 0x80;
}

static void damaged_table(void)
{
	struct watch *watch = begin(DEDAKHUMI_POLICY_QERR_ALL | DEDAKHUMI_POLICY_TAS);
	accepts(watch, 0, 2, SIMPLE, 0);
	accepts(watch, 1, 2, SIMPLE, 0);
	names(watch, "the older one", true, "run 0.2; ");
	damage(watch);
	names(watch, "the tasks are lost", false, "naming refused; let go 0.2 at the disk; let go 1.2; started over; ");
	check_number(watch, "the policy is not", watch->box.port.table[DEDAKHUMI_AT_HEADER_POLICY], 0x05);
	check_answer(watch, "hosts hear of a power on", command(watch, 0, 3, SIMPLE, 0), 7, "send 0.3 02h 6h/29h/00h; ");
	accepts(watch, 0, 4, SIMPLE, 0);
	damage(watch);
	check_answer(watch, "an event finds it", command(watch, 1, 3, SIMPLE, 0), 1, "let go 0.4; started over; ");
	check_number(watch, "and comes to nothing", count_requests(&watch->box.kept), 0);
	check_answer(watch, "power on", command(watch, 0, 5, SIMPLE, 0), 7, "send 0.5 02h 6h/29h/00h; ");
	accepts(watch, 0, 6, SIMPLE, 0);
	accepts(watch, 0, 7, SIMPLE, 0);
	runs(watch, "both", 2, "run 0.6; run 0.7; ");
	damage(watch);
	check_answer(watch, "an end finds it, and the disk has the other task alone", good(watch, 0, 6), 1,
		"let go 0.6; let go 0.7 at the disk; started over; ");
	damage(watch);
	runs(watch, "no record of a damaged table is believed", 0, "naming refused; started over; ");
}

static void mistakes(void)
{
	struct watch *watch = begin(DEDAKHUMI_POLICY_QERR_NONE);
	check_answer(watch, "a ninth nexus", command(watch, 8, 1, SIMPLE, 0), 4, "");
	check_answer(watch, "the CDB's control byte", command(watch, 0, 2, SIMPLE, 0x04), 3, "");
	accepts(watch, 0, 2, SIMPLE, 0);
	names(watch, "neither is in the table", true, "run 0.2; ");
	struct dedakhumi_event past_the_box = dedakhumi_command_event(4, 2, ORDERED, 0);
	check_number(watch, "a task that the box does not know", port_apply(&watch->box.port, &past_the_box).answer, 0);
	check_answer(watch, "has no request to hold back", good(watch, 4, 2), 6, "fault; ");
	check_answer(watch, "the other ends", good(watch, 0, 2), 0, "let go 0.2; send 0.2 00h; ");
	runs(watch, "it has none to give to the disk", 0, "fault; ");
	check_answer(watch, "and none to let go of, but its host hears", good(watch, 4, 2), 0, "fault; send 4.2 00h; ");
}

int main(int argument_count, char **arguments)
{
	(void)arguments;
	take_no_argument("port", argument_count);
	power_on();
	ordered_write();
	turns();
	blocked_task();
	blocked_task_failed();
	blocked_task_aborted();
	stray_ends();
	stray_ends_in_aca();
	statuses_of_the_disk();
	aborts();
	aborts_of_others();
	refused_command_blocks();
	refused_command_aborts();
	full();
	damaged_table();
	mistakes();
	printf("port: %u checks of what a box asks of the driver around it, none failed\n", checks_made());
	return fclose(stdout) == 0 ? EXIT_SUCCESS : EXIT_FAILURE;
}
