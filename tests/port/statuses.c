#include "statuses.h"

#include "acts.h"

/* of a disk's statuses the one that dedakhumi.h has no name for */
enum { CONDITION_MET = 0x04 };
enum { GOOD = DEDAKHUMI_STATUS_GOOD, BUSY = DEDAKHUMI_STATUS_BUSY, CONFLICT = DEDAKHUMI_STATUS_RESERVATION_CONFLICT };
enum { FULL = DEDAKHUMI_STATUS_TASK_SET_FULL, ABORTED = DEDAKHUMI_STATUS_TASK_ABORTED, NONE = DEDAKHUMI_STATUS_NONE };

static void check_run(struct watch *watch, const char *what, unsigned run)
{
	check_number(watch, what, dedakhumi_run_of(watch->box.port.table), run);
}

static void check_no_aca(struct watch *watch)
{
	check_number(watch, "no ACA", dedakhumi_faulted_nexus(watch->box.port.table), DEDAKHUMI_NEXUSES);
}

static void clear_aca(struct watch *watch)
{
	check_answer(watch, "the ACA is cleared", function(watch, 1, DEDAKHUMI_FUNCTION_CLEAR_ACA), 0, "");
	check_no_aca(watch);
}

/* Though QERR is 01b and NACA 1, no other task ends, nobody will hear of it, and no ACA begins. */
static void only_end(void)
{
	struct watch *watch = begin(DEDAKHUMI_POLICY_QERR_ALL);
	accepts(watch, 0, 2, SIMPLE, NACA);
	accepts(watch, 1, 2, HEAD_OF_QUEUE, NACA);
	accepts(watch, 2, 2, SIMPLE, 0);
	runs(watch, "the youngest waits for the HEAD OF QUEUE task", 2, "run 0.2; run 1.2; ");
	check_end(watch, "RESERVATION CONFLICT", ends(watch, 1, 2, CONFLICT), 0, CONFLICT, "let go 1.2; send 1.2 18h; ");
	check_run(watch, "it was named, and is a turn", 1);
	runs(watch, "it enables the youngest", 1, "run 2.2; ");
	check_end(watch, "BUSY, out of its turn", ends(watch, 2, 2, BUSY), 0, BUSY, "let go 2.2; send 2.2 08h; ");
	check_run(watch, "it is no turn", 1);
	check_end(watch, "BUSY of the named task", ends(watch, 0, 2, BUSY), 0, BUSY, "let go 0.2; send 0.2 08h; ");
	check_run(watch, "the turn of a SIMPLE task", 0);
	check_no_aca(watch);
	check_end(watch, "a late one", ends(watch, 0, 2, CONFLICT), 5, CONFLICT, "");
	accepts(watch, 1, 3, SIMPLE, 0);
	accepts(watch, 2, 3, SIMPLE, 0);
}

/* Those that the table does not take are GOOD to it, and the host hears the disk's own. */
static void others_are_good(void)
{
	struct watch *watch = begin(DEDAKHUMI_POLICY_QERR_ALL);
	for (uint8_t nexus = 0; nexus < 4; nexus++)
		accepts(watch, nexus, 2, SIMPLE, NACA);
	runs(watch, "all", 4, "run 0.2; run 1.2; run 2.2; run 3.2; ");
	check_end(watch, "CONDITION MET", ends(watch, 0, 2, CONDITION_MET), 0, GOOD, "let go 0.2; send 0.2 04h; ");
	check_end(watch, "TASK SET FULL", ends(watch, 1, 2, FULL), 0, GOOD, "let go 1.2; send 1.2 28h; ");
	check_end(watch, "an abort by the disk, which has nothing to drop", ends(watch, 2, 2, ABORTED), 0, GOOD, "let go 2.2; send 2.2 40h; ");
	check_end(watch, "FFh is sent to nobody", ends(watch, 3, 2, NONE), 0, GOOD, "let go 3.2; ");
	check_no_aca(watch);
	check_end(watch, "a late one", ends(watch, 0, 2, FULL), 5, GOOD, "");
	accepts(watch, 0, 2, SIMPLE, 0);
	runs(watch, "the tag is used again", 1, "run 0.2; ");
	check_end(watch, "and the status before is forgotten", good(watch, 0, 2), 0, GOOD, "let go 0.2; send 0.2 00h; ");
}

/* 2.2 ends while it is blocked: the table is told `told` at once and once more when the ACA has gone; `sent` is what is asked for then. */
static void held_back(uint8_t status, uint8_t told, const char *sent)
{
	struct watch *watch = begin_aca();
	check_end(watch, "the disk's own status waits too", ends(watch, 2, 2, status), 6, told, "");
	clear_aca(watch);
	runs(watch, "and is sent", 1, sent);
	check_number(watch, "given again as it was given", watch->told, told);
}

static void abort_takes_its_place(void)
{
	struct watch *watch = begin_aca();
	check_end(watch, "it waits", ends(watch, 2, 2, CONFLICT), 6, CONFLICT, "");
	check_answer(watch, "an abort takes its place", function(watch, 2, DEDAKHUMI_FUNCTION_ABORT_TASK_SET), 0, "let go 2.2; ");
}

/* The ACA stands, so that the next ACA command may come, and 2.2 stays blocked. */
static void of_the_aca_task(void)
{
	struct watch *watch = begin_aca();
	accepts(watch, 1, 3, DEDAKHUMI_ATTRIBUTE_ACA, 0);
	names(watch, "the turn is the ACA task's", true, "run 1.3; ");
	check_end(watch, "BUSY", ends(watch, 1, 3, BUSY), 0, BUSY, "let go 1.3; send 1.3 08h; ");
	check_number(watch, "the faulted nexus", dedakhumi_faulted_nexus(watch->box.port.table), 1);
	accepts(watch, 1, 4, DEDAKHUMI_ATTRIBUTE_ACA, NACA);
	names(watch, "the next one's", true, "run 1.4; ");
	check_end(watch, "RESERVATION CONFLICT", ends(watch, 1, 4, CONFLICT), 0, CONFLICT, "let go 1.4; send 1.4 18h; ");
	check_number(watch, "the faulted nexus", dedakhumi_faulted_nexus(watch->box.port.table), 1);
	check_answer(watch, "the blocked task has to wait", good(watch, 2, 2), 6, "");
	clear_aca(watch);
	runs(watch, "until now", 1, "gives again; let go 2.2; send 2.2 00h; run 7.2; ");
}

void statuses_of_the_disk(void)
{
	only_end();
	others_are_good();
	held_back(CONFLICT, CONFLICT, "gives again; let go 2.2; send 2.2 18h; run 7.2; ");
	held_back(BUSY, BUSY, "gives again; let go 2.2; send 2.2 08h; run 7.2; ");
	held_back(FULL, GOOD, "gives again; let go 2.2; send 2.2 28h; run 7.2; ");
	abort_takes_its_place();
	of_the_aca_task();
}
