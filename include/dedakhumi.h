/* Dedakhumi: the task set of a SCSI target box, for the port driver that lends it its bytes. One logical unit, one task set of up to 64
   tasks, shared by eight I_T nexuses numbered 0 to 7. It says which task may run and which has to wait, whose turn it is, and who is told
   of an abort; it moves no data, and of a command it knows nexus, tag, task attribute, NACA and whether it is exempt. Words that are not
   explained are SAM-4's. What stands here is enough to write a driver; "RULES 5.2" is a clause of the law in full, RULES.md, which is
   installed in share/doc/dedakhumi. As it is built it is for x86-64 programs, not for a kernel or an interrupt handler (WHAT IT COSTS).
   The header is C99 and C++.

   HOW A DRIVER GOES
   1. Lend a table of DEDAKHUMI_TABLE_LENGTH bytes and call dedakhumi_start once, with the policy, which is fixed from then on.
   2. For each command, completion, management function and condition make an event (the functions at the end) and call dedakhumi_apply.
   3. Under the answers 0 and 7 first send what the report lists: `ended` records, each a task that has left the table, the completed one
      among them, with the status for its host. FFh is sent to nobody. The disk has to let go of an aborted task, sent or not (below); then
      drop what was kept for it.
   4. A COMMAND answered 0 is a task now, and has ended nobody: keep its command block, found by nexus and tag. Answered 7 it is none: send
      the answer's status and sense, and keep nothing. The report does not list it, but with CHECK CONDITION it may list tasks, of other
      hosts too, so read it under 7 as under 0. A MANAGEMENT answered 0 is FUNCTION COMPLETE, and 8 is FUNCTION REJECTED.
   5. Call dedakhumi_name, run the task that it names, give its end as a COMPLETION, and so on. A driver may also run every task whose
      state is enabled, side by side: any of them may be completed. If another task is named while one runs, the one that runs goes on.
   6. The wait that is promised (RULES 23.5): a task accepted with another attribute than ACA while k older tasks were in the table has
      ended by the 5 x (k + 1)th turn after that, whatever else comes between. A turn is a COMPLETION of any status, answered 0, of the task
      that dedakhumi_name gives just before it, with no ACA then; so the promise is worth something where the named task is run. RULES 23.8
      has the longest wait there is, by how many HEAD OF QUEUE tasks and how many others were in the table.
   Whose turn it is (RULES 2.10 to 2.12): with an ACA it is that of the ACA task, if there is one, and else nobody's. Without one it is that
   of the oldest enabled HEAD OF QUEUE task, unless there is none, or the last four turns were such tasks' (run is 4) and a SIMPLE or
   ORDERED task is enabled: then it is that of the oldest enabled task.

   WHAT A DRIVER OWES TO ITS DISK AND HOSTS
   - An aborted task leaves the table at once, and others are enabled, while the disk may still be writing it. Where that matters, the
     driver drains it first: until the disk has let go, it starts nothing that would have waited for the task, and that may be a command
     that enters later too; most simply it starts nothing. FUNCTION COMPLETE and TASK ABORTED go out after that as well.
   - A COMPLETION that comes while the task is blocked is answered 6. The driver keeps it, and gives it again when the task is enabled,
     the oldest task's first, with a look at the states after each; a report that lists the task before says that it is to be dropped. A
     task once enabled is never dormant again: after an ACA it is enabled again.
   - A COMPLETION is for the command that is in the table now. A host may use the tag of an ended task at once, so ends that come from the
     disk are told apart by a number of the driver's own: a late one is answered 5 only while the tag is unused, and is dropped.
   - The disk's GOOD, CHECK CONDITION, BUSY and RESERVATION CONFLICT are given as they are. For any other status of the disk's the driver
     gives GOOD, which ends the task and nothing else, and sends the host the disk's own in its place. A task that the disk ends with BUSY
     or RESERVATION CONFLICT was not carried out, and what waited for it may run all the same: no ACA holds it back, also with NACA 1.
   - After answer 1, of dedakhumi_name too, there is no table any more: let the disk let go of everything, start over with the policy kept
     beside the table, and give the event again if it was no completion. Each host will be told of a power on.

   A CHECK CONDITION AND OTHER TASKS (RULES 4.5 to 4.7, 5.16 to 5.20, 6.6, 6.9)
   - When a task completes with CHECK CONDITION, other tasks end by the policy's QERR, and then, with NACA, an ACA begins. When a command
     ends at entry with CHECK CONDITION (its tag, a unit attention, its attribute) the same happens, unless an ACA is in effect: then
     neither does. No other status has such an effect: not the BUSY or RESERVATION CONFLICT that a task completes with, which end it as
     GOOD does, and not BUSY, TASK SET FULL and ACA ACTIVE at entry.
   - So a host that sets NACA in every command may have an ACA from the first on, which is told of the power on, and has to clear it.
   - Under QERR_ALL without TAS a host that is told of tasks that it lost ends those of others by that, and they are told in their turn.
     Hosts that always have tasks in the box may go on so; with TAS nothing is left to be told.

   AN ACA (RULES 2.8 to 2.10, 5.3 to 5.10, 5.13, 5.17, 6.3, 6.9)
   - It begins as above; the faulted nexus is that of the task, or of the command that ended at entry.
   - Enabled tasks are blocked then, dormant ones stay so, also where the same event has ended what they waited for. One ACA task of the
     faulted nexus may enter at a time, after it was told the unit attentions that wait for it, if it is not exempt; no place is kept for
     it, so that 64 tasks keep it out. Every other command of that nexus gets ACA ACTIVE, and those of others get BUSY, or ACA ACTIVE with
     NACA; what waits for them waits on. A tag that is in the table goes before all this (DEDAKHUMI_KIND_COMMAND).
   - It ends by CLEAR ACA of the faulted nexus, by CHECK CONDITION of the ACA task without NACA, by the loss of the faulted nexus, and by
     every reset; by no abort, and not by GOOD, BUSY or RESERVATION CONFLICT of the ACA task.

   WHAT THE CALLER OWES, since the library cannot see it. It trusts no byte that it is lent: every call with any lengths and any bytes has
   an answer, and a call that is refused, by 1 to 6 or 9, changes nothing.
   - A length is true: that many bytes at the pointer may be read, and written unless the pointer is to const.
   - Table, report and event do not overlap.
   - Nothing else reads or writes the lent bytes during a call: one call at a time on a table. Calls on different tables may run at the same
     time, each with its own report.
   - Only the library writes to a table. A table that somebody else wrote to is refused with 1 if it is no longer well formed; if it still
     is, it is taken for what it says.
   - A null pointer comes only with the length 0. Such a call is refused: no lent buffer has the right length 0.
   Bytes need no alignment. A table may be copied, stored and lent again from another place; what an event would do can be tried on a copy.

   WHAT IT COSTS
   - The archive is for x86-64 with System V calls. It allocates nothing, keeps nothing between calls, calls nothing but memset, and never
     blocks. It uses the red zone and SSE registers, which a kernel and an interrupt handler must not.
   - Stack: DEDAKHUMI_APPLY_STACK, DEDAKHUMI_NAME_STACK and DEDAKHUMI_START_STACK bytes, return address included; memset's own come to that.
   - Instructions of dedakhumi_apply: in steady work some 960 an event at 3 tasks, 2,310 at 16 and 10,150 at 64. The most that a search
     found (0.6.0) is some 24,400: a CHECK CONDITION of the ACA task under QERR 01b on a lent table with 63 other tasks; and 23,300 where a
     start leads there: that of a task under QERR 01b with 64 tasks. Both end all tasks, so that no two such events follow each other. */
#ifndef DEDAKHUMI_H
#define DEDAKHUMI_H

#include <stdbool.h>
#include <stddef.h>
#include <stdint.h>

#ifdef __cplusplus
extern "C" {
#endif

/* DEDAKHUMI_INTERFACE goes up with each change of a length, a layout or a function's parameters. */
#define DEDAKHUMI_VERSION "0.6.0"
#define DEDAKHUMI_INTERFACE 1
#define DEDAKHUMI_INTERFACE_SYMBOL dedakhumi_interface_1

/* The archive defines the symbol of its own interface alone, and each file that includes this header asks for the header's: an old header
   with a new archive, or the other way round, fails to link. It is kept where the linker drops what is not used (--gc-sections). */
#if defined(__has_attribute)
#if __has_attribute(retain)
#define DEDAKHUMI_KEPT __attribute__((used, retain))
#endif
#endif
#ifndef DEDAKHUMI_KEPT
#define DEDAKHUMI_KEPT __attribute__((used))
#endif
extern const uint8_t DEDAKHUMI_INTERFACE_SYMBOL;
static const uint8_t *const dedakhumi_interface_asked DEDAKHUMI_KEPT = &DEDAKHUMI_INTERFACE_SYMBOL;
#undef DEDAKHUMI_KEPT

/* A task is known by its nexus and its tag. In a record the tag is big-endian. */
typedef uint16_t dedakhumi_tag;

/* Bytes of stack that a call takes at the most. */
#define DEDAKHUMI_APPLY_STACK 544
#define DEDAKHUMI_NAME_STACK 368
#define DEDAKHUMI_START_STACK 8

/* Lengths in bytes, and numbers of records (RULES 13). */
#define DEDAKHUMI_HEADER_LENGTH 8
#define DEDAKHUMI_NEXUS_LENGTH 8
#define DEDAKHUMI_TASK_LENGTH 8
#define DEDAKHUMI_ENDED_LENGTH 8
#define DEDAKHUMI_EVENT_LENGTH 8
#define DEDAKHUMI_NEXUSES 8
#define DEDAKHUMI_TASKS 64
#define DEDAKHUMI_TABLE_LENGTH 584
#define DEDAKHUMI_REPORT_LENGTH 512

/* Where the records of a table stand: the header, eight nexus records in order 0 to 7, 64 task records. */
#define DEDAKHUMI_HEADER_OFFSET 0
#define DEDAKHUMI_NEXUS_OFFSET 8
#define DEDAKHUMI_TASK_OFFSET 72

/* RULES 15 and 16. Every record is 8 bytes and opens with a mark of two bytes. A tag is big-endian: byte 6 is its high byte.

   byte      0  1   2        3             4           5                        6        7
   header   54 48  01       policy        task count  ACA: 0, or 1 + faulted   run      0
                                          0 to 64     nexus                    0 to 4
   nexus    54 4E  nexus    pending bits  0           0                        0        0
   task     54 54  nexus    attribute     state       control: bit 0 NACA      tag      tag
   ended    54 45  nexus    status        0           0                        tag      tag
   event    54 56  kind     nexus         first       second                   tag      tag

   Used task records come first, oldest first; an unused one is 54 54 and six zeros. The report holds an ended record for each task that the
   event ended, in their former age order, then zeros to the end. */
enum dedakhumi_mark {
	DEDAKHUMI_MARK_FIRST = 0x54,
	DEDAKHUMI_MARK_HEADER = 0x48,
	DEDAKHUMI_MARK_NEXUS = 0x4E,
	DEDAKHUMI_MARK_TASK = 0x54,
	DEDAKHUMI_MARK_ENDED = 0x45,
	DEDAKHUMI_MARK_EVENT = 0x56
};

/* The places of the fields in their records, as above. */
enum dedakhumi_place {
	DEDAKHUMI_AT_HEADER_POLICY = 3,
	DEDAKHUMI_AT_HEADER_COUNT = 4,
	DEDAKHUMI_AT_HEADER_ACA = 5,
	DEDAKHUMI_AT_HEADER_RUN = 6,
	DEDAKHUMI_AT_NEXUS_NUMBER = 2,
	DEDAKHUMI_AT_NEXUS_PENDING = 3,
	DEDAKHUMI_AT_TASK_NEXUS = 2,
	DEDAKHUMI_AT_TASK_ATTRIBUTE = 3,
	DEDAKHUMI_AT_TASK_STATE = 4,
	DEDAKHUMI_AT_TASK_CONTROL = 5,
	DEDAKHUMI_AT_TASK_TAG = 6,
	DEDAKHUMI_AT_ENDED_NEXUS = 2,
	DEDAKHUMI_AT_ENDED_STATUS = 3,
	DEDAKHUMI_AT_ENDED_TAG = 6,
	DEDAKHUMI_AT_EVENT_KIND = 2,
	DEDAKHUMI_AT_EVENT_NEXUS = 3,
	DEDAKHUMI_AT_EVENT_FIRST = 4,
	DEDAKHUMI_AT_EVENT_SECOND = 5,
	DEDAKHUMI_AT_EVENT_TAG = 6
};

/* The answer numbers (RULES 18), and what becomes of the two buffers. "Same" means that no byte of it changes. The lowest of 1 to 4 that
   applies is given, and each is given only then. */
enum dedakhumi_answer_number {
	/* Done.                                                                Table as ruled, report written whole. */
	DEDAKHUMI_DONE = 0,
	/* Bad table: not 584 bytes, or not well formed.                        Table same, report same. */
	DEDAKHUMI_BAD_TABLE = 1,
	/* Bad report buffer: not 512 bytes.                                    Table same, report same. */
	DEDAKHUMI_BAD_REPORT = 2,
	/* Bad event: not 8 bytes, or no event record as below.               Table same, report same. */
	DEDAKHUMI_BAD_EVENT = 3,
	/* The event's nexus is above 7.                                        Table same, report same. */
	DEDAKHUMI_NEXUS_ABOVE_SEVEN = 4,
	/* COMPLETION of a task that is not in the table.                       Table same, report same. */
	DEDAKHUMI_NO_SUCH_TASK = 5,
	/* COMPLETION of a task that is dormant or blocked.                     Table same, report same. */
	DEDAKHUMI_NOT_ENABLED = 6,
	/* COMMAND ended at entry with the status and sense given; not a task.  Table as ruled, report written whole. */
	DEDAKHUMI_ENDED_AT_ENTRY = 7,
	/* MANAGEMENT: function rejected.                                       Table same, report all zeros. */
	DEDAKHUMI_REJECTED = 8,
	/* Bad policy; from dedakhumi_start alone.                              Table same, no report. */
	DEDAKHUMI_BAD_POLICY = 9
};

/* The policy byte (RULES 14.4): one QERR value, with or without TAS. QERR 10b and bits 3 to 7 are a bad policy. It survives every reset.
   "That nexus" is the one of the task that completed, or of the command that ended at entry. */
enum dedakhumi_policy {
	/* a CHECK CONDITION aborts no other task */
	DEDAKHUMI_POLICY_QERR_NONE = 0x00,
	/* it aborts every other task */
	DEDAKHUMI_POLICY_QERR_ALL = 0x01,
	/* it aborts the other tasks of that nexus */
	DEDAKHUMI_POLICY_QERR_NEXUS = 0x03,
	/* tasks that another nexus aborts by QERR or CLEAR TASK SET end with TASK ABORTED; without it they end with FFh, and the nexus
	   that lost them gets a unit attention. Resets and a nexus loss don't look at it. */
	DEDAKHUMI_POLICY_TAS = 0x04
};

/* Byte 2 of an event (RULES 16). A field that is not named beside a kind has to be 0. */
enum dedakhumi_kind {
	/* nexus, tag; first: the attribute, any byte; second: DEDAKHUMI_CONTROL_NACA, DEDAKHUMI_CONTROL_EXEMPT, and no other bit. Where a
	   task of that nexus and tag is in the table, all tasks of the nexus end with FFh, and the command with CHECK CONDITION, in an ACA
	   too. That is a CHECK CONDITION like others: without an ACA those of other nexuses may end as well, by QERR. */
	DEDAKHUMI_KIND_COMMAND = 1,
	/* nexus, tag; first: the status, GOOD, CHECK CONDITION, BUSY or RESERVATION CONFLICT. Each ends the task with that status, and CHECK
	   CONDITION alone does more. */
	DEDAKHUMI_KIND_COMPLETION = 2,
	/* nexus; first: the function; tag: that of the task for ABORT TASK, 0 for the other functions, free for an unknown one */
	DEDAKHUMI_KIND_MANAGEMENT = 3,
	/* first: the condition; nexus: the lost one for a nexus loss, 0 for the others */
	DEDAKHUMI_KIND_CONDITION = 4
};

/* Byte 5 of a COMMAND. Bit 0 is byte 5 of the task as well. It is not the CDB's control byte, where NACA is bit 2. */
enum dedakhumi_control {
	/* CHECK CONDITION sets up an ACA: the task's, and without an ACA that of a command that ends at entry */
	DEDAKHUMI_CONTROL_NACA = 0x01,
	/* INQUIRY, REPORT LUNS or REQUEST SENSE: enters in spite of a pending unit attention, which stays for the next other command */
	DEDAKHUMI_CONTROL_EXEMPT = 0x02
};

/* Byte 4 of a MANAGEMENT (RULES 7). Any other is unknown and rejected with 8. All but the last leave an ACA, CLEAR ACA aside. */
enum dedakhumi_function {
	/* ends the sender's task of that tag; done as well if there is none */
	DEDAKHUMI_FUNCTION_ABORT_TASK = 1,
	/* ends the sender's tasks */
	DEDAKHUMI_FUNCTION_ABORT_TASK_SET = 2,
	/* ends all tasks, those of others by DEDAKHUMI_POLICY_TAS */
	DEDAKHUMI_FUNCTION_CLEAR_TASK_SET = 3,
	/* ends the ACA, and the ACA task with FFh; done without an ACA; rejected with 8 when another nexus than the sender is the faulted one */
	DEDAKHUMI_FUNCTION_CLEAR_ACA = 4,
	/* ends all tasks with FFh and the ACA, run is 0, and all eight get a unit attention, the sender too */
	DEDAKHUMI_FUNCTION_LOGICAL_UNIT_RESET = 5
};

/* Byte 4 of a CONDITION (RULES 8). Any other is a bad event. The first two end all tasks and the ACA as a LOGICAL UNIT RESET does, and give
   all eight a unit attention of their own. */
enum dedakhumi_condition {
	/* leaves the table that dedakhumi_start makes, and reports the tasks that were there */
	DEDAKHUMI_CONDITION_POWER_ON = 1,
	DEDAKHUMI_CONDITION_HARD_RESET = 2,
	/* ends the tasks of that nexus with FFh, and its ACA; it gets a unit attention */
	DEDAKHUMI_CONDITION_NEXUS_LOSS = 3
};

/* Byte 4 of a COMMAND, byte 3 of a task (RULES 2.2 to 2.6). A COMMAND with another byte, or with ACA while no ACA is in effect, ends at
   entry. */
enum dedakhumi_attribute {
	/* waits for older HEAD OF QUEUE and ORDERED tasks */
	DEDAKHUMI_ATTRIBUTE_SIMPLE = 0,
	/* waits for nobody */
	DEDAKHUMI_ATTRIBUTE_HEAD_OF_QUEUE = 1,
	/* waits for every older task */
	DEDAKHUMI_ATTRIBUTE_ORDERED = 2,
	/* for the faulted nexus, one at a time; waits for nobody */
	DEDAKHUMI_ATTRIBUTE_ACA = 4
};

/* Byte 4 of a task (RULES 2.7 to 2.9). */
enum dedakhumi_state {
	/* waits for older tasks */
	DEDAKHUMI_STATE_DORMANT = 1,
	/* may run, and may be completed */
	DEDAKHUMI_STATE_ENABLED = 2,
	/* was enabled when an ACA began, and waits for its end */
	DEDAKHUMI_STATE_BLOCKED = 3
};

/* SAM-4's status codes: byte 4 of a COMPLETION, the status of an answer 7 (RULES 5), or byte 3 of an ended record (RULES 4.4, 6.5, 6.6 and
   6.9). */
enum dedakhumi_status {
	DEDAKHUMI_STATUS_GOOD = 0x00,
	DEDAKHUMI_STATUS_CHECK_CONDITION = 0x02,
	/* a COMPLETION's, or that of a command ended at entry in an ACA */
	DEDAKHUMI_STATUS_BUSY = 0x08,
	/* a COMPLETION's only: at entry the box knows no reservations */
	DEDAKHUMI_STATUS_RESERVATION_CONFLICT = 0x18,
	DEDAKHUMI_STATUS_TASK_SET_FULL = 0x28,
	DEDAKHUMI_STATUS_ACA_ACTIVE = 0x30,
	DEDAKHUMI_STATUS_TASK_ABORTED = 0x40,
	/* in an ended record only: nothing is sent for this task */
	DEDAKHUMI_STATUS_NONE = 0xFF
};

/* Byte 3 of a nexus record (RULES 3): the unit attentions that wait for the nexus, highest rank first. A command that is not exempt, and
   that neither its tag nor an ACA has stopped, is told the highest one by CHECK CONDITION with key 6h and the code and qualifier beside
   it; that one is cleared, and the others wait for later commands. QERR and NACA go with this CHECK CONDITION as with any other. One that
   is set takes those of lower rank away. */
enum dedakhumi_pending {
	/* 29h/00h */
	DEDAKHUMI_PENDING_POWER_ON = 0x01,
	/* 29h/02h */
	DEDAKHUMI_PENDING_HARD_RESET = 0x02,
	/* 29h/03h */
	DEDAKHUMI_PENDING_LOGICAL_UNIT_RESET = 0x04,
	/* 29h/07h */
	DEDAKHUMI_PENDING_NEXUS_LOSS = 0x08,
	/* 2Fh/00h, commands cleared by another initiator (DEDAKHUMI_POLICY_TAS) */
	DEDAKHUMI_PENDING_COMMANDS_CLEARED = 0x10
};

/* The sense keys of an answer 7 with CHECK CONDITION (RULES 5.2, 5.8 and 5.11). */
enum dedakhumi_sense_key {
	/* 49h/00h: an attribute that is none of the four, or ACA without an ACA */
	DEDAKHUMI_SENSE_KEY_ILLEGAL_REQUEST = 0x5,
	/* a unit attention, see the pending bits */
	DEDAKHUMI_SENSE_KEY_UNIT_ATTENTION = 0x6,
	/* 4Eh/00h: overlapped command, its nexus and tag were in the table */
	DEDAKHUMI_SENSE_KEY_ABORTED_COMMAND = 0xB
};

/* What dedakhumi_apply answers. `status` is 0 except under 7; `key`, `code` and `qualifier` are 0 except under 7 with CHECK CONDITION;
   `ended` is the number of ended records in the report, and 0 under every answer but 0 and 7, and under 7 without CHECK CONDITION. */
struct dedakhumi_answer {
	uint8_t answer, status, key, code, qualifier, ended;
};

/* What dedakhumi_name answers. `found` says whether it is a task's turn; without it, and under 1, `nexus` and `tag` are 0. */
struct dedakhumi_turn {
	uint8_t answer;
	bool found;
	uint8_t nexus;
	dedakhumi_tag tag;
};

/* Writes a fresh table, as after power on: no task, no ACA, run 0, power on pending for all eight. What the bytes held does not matter.
   Answers 0, or 1 (length), else 9 (policy) with the table the same. */
uint8_t dedakhumi_start(uint8_t *table, size_t table_len, uint8_t policy);

/* Applies one event to the table and writes the report of it. Answers 0 to 8. */
struct dedakhumi_answer dedakhumi_apply(uint8_t *table, size_t table_len, uint8_t *report, size_t report_len, const uint8_t *event,
	size_t event_len);

/* Names the task whose turn it is. Answers 0 or 1, and changes nothing. */
struct dedakhumi_turn dedakhumi_name(const uint8_t *table, size_t table_len);

/* The rest is for the driver's use and calls nothing: events made, and what a table or a report holds read by the places above. */

struct dedakhumi_event {
	uint8_t bytes[DEDAKHUMI_EVENT_LENGTH];
};

/* What an event's bytes say; `first` and `second` mean something else with each kind. */
struct dedakhumi_fields {
	uint8_t kind, nexus, first, second;
	dedakhumi_tag tag;
};

struct dedakhumi_task {
	uint8_t nexus, attribute, state, control;
	dedakhumi_tag tag;
};

struct dedakhumi_ended {
	uint8_t nexus, status;
	dedakhumi_tag tag;
};

/* A tag's bytes in a record, from the first of them on. */
static inline dedakhumi_tag dedakhumi_get_tag(const uint8_t *bytes)
{
	dedakhumi_tag tag = 0;
	for (size_t i = 0; i < sizeof tag; i++)
		tag = (dedakhumi_tag)(tag << 8 | bytes[i]);
	return tag;
}

static inline void dedakhumi_put_tag(uint8_t *bytes, dedakhumi_tag tag)
{
	for (size_t i = sizeof tag; i > 0; i--) {
		bytes[i - 1] = (uint8_t)(tag & 0xFF);
		tag = (dedakhumi_tag)(tag >> 8);
	}
}

/* An event of any fields, right or wrong: what those below are made by. */
static inline struct dedakhumi_event dedakhumi_event_of(uint8_t kind, uint8_t nexus, uint8_t first, uint8_t second, dedakhumi_tag tag)
{
	struct dedakhumi_event event = {{DEDAKHUMI_MARK_FIRST, DEDAKHUMI_MARK_EVENT, kind, nexus, first, second}};
	dedakhumi_put_tag(event.bytes + DEDAKHUMI_AT_EVENT_TAG, tag);
	return event;
}

static inline struct dedakhumi_fields dedakhumi_fields_of(const uint8_t *event)
{
	struct dedakhumi_fields fields = {event[DEDAKHUMI_AT_EVENT_KIND], event[DEDAKHUMI_AT_EVENT_NEXUS], event[DEDAKHUMI_AT_EVENT_FIRST],
		event[DEDAKHUMI_AT_EVENT_SECOND], dedakhumi_get_tag(event + DEDAKHUMI_AT_EVENT_TAG)};
	return fields;
}

/* `control` is DEDAKHUMI_CONTROL_NACA and DEDAKHUMI_CONTROL_EXEMPT, not the CDB's control byte. */
static inline struct dedakhumi_event dedakhumi_command_event(uint8_t nexus, dedakhumi_tag tag, uint8_t attribute, uint8_t control)
{
	return dedakhumi_event_of(DEDAKHUMI_KIND_COMMAND, nexus, attribute, control, tag);
}

/* `status` is one of the first four of enum dedakhumi_status, GOOD to RESERVATION CONFLICT. */
static inline struct dedakhumi_event dedakhumi_completion_event(uint8_t nexus, dedakhumi_tag tag, uint8_t status)
{
	return dedakhumi_event_of(DEDAKHUMI_KIND_COMPLETION, nexus, status, 0, tag);
}

static inline struct dedakhumi_event dedakhumi_abort_task_event(uint8_t nexus, dedakhumi_tag tag)
{
	return dedakhumi_event_of(DEDAKHUMI_KIND_MANAGEMENT, nexus, DEDAKHUMI_FUNCTION_ABORT_TASK, 0, tag);
}

/* Every function but ABORT TASK, which alone has a tag. */
static inline struct dedakhumi_event dedakhumi_function_event(uint8_t nexus, uint8_t function)
{
	return dedakhumi_event_of(DEDAKHUMI_KIND_MANAGEMENT, nexus, function, 0, 0);
}

static inline struct dedakhumi_event dedakhumi_nexus_loss_event(uint8_t nexus)
{
	return dedakhumi_event_of(DEDAKHUMI_KIND_CONDITION, nexus, DEDAKHUMI_CONDITION_NEXUS_LOSS, 0, 0);
}

/* Power on and hard reset, which have no nexus. */
static inline struct dedakhumi_event dedakhumi_reset_event(uint8_t condition)
{
	return dedakhumi_event_of(DEDAKHUMI_KIND_CONDITION, 0, condition, 0, 0);
}

/* The record at `place` of a report, the answer's `ended` records from 0 on. */
static inline struct dedakhumi_ended dedakhumi_ended_at(const uint8_t *report, size_t place)
{
	const uint8_t *record = report + DEDAKHUMI_ENDED_LENGTH * place;
	struct dedakhumi_ended ended = {
		record[DEDAKHUMI_AT_ENDED_NEXUS], record[DEDAKHUMI_AT_ENDED_STATUS], dedakhumi_get_tag(record + DEDAKHUMI_AT_ENDED_TAG)};
	return ended;
}

/* Never more than there is room for, though a damaged table may say more. */
static inline size_t dedakhumi_task_count(const uint8_t *table)
{
	size_t count = table[DEDAKHUMI_HEADER_OFFSET + DEDAKHUMI_AT_HEADER_COUNT];
	return count < DEDAKHUMI_TASKS ? count : DEDAKHUMI_TASKS;
}

/* Without an ACA this is DEDAKHUMI_NEXUSES. */
static inline uint8_t dedakhumi_faulted_nexus(const uint8_t *table)
{
	uint8_t aca = table[DEDAKHUMI_HEADER_OFFSET + DEDAKHUMI_AT_HEADER_ACA];
	return aca == 0 ? (uint8_t)DEDAKHUMI_NEXUSES : (uint8_t)(aca - 1);
}

/* How many turns of HEAD OF QUEUE tasks came last, up to 4. */
static inline uint8_t dedakhumi_run_of(const uint8_t *table)
{
	return table[DEDAKHUMI_HEADER_OFFSET + DEDAKHUMI_AT_HEADER_RUN];
}

/* `nexus` is 0 to 7. */
static inline uint8_t dedakhumi_pending_of(const uint8_t *table, unsigned nexus)
{
	return table[DEDAKHUMI_NEXUS_OFFSET + DEDAKHUMI_NEXUS_LENGTH * nexus + DEDAKHUMI_AT_NEXUS_PENDING];
}

/* The record at `place` of a table, below its task count; 0 is the oldest. */
static inline struct dedakhumi_task dedakhumi_task_at(const uint8_t *table, size_t place)
{
	const uint8_t *record = table + DEDAKHUMI_TASK_OFFSET + DEDAKHUMI_TASK_LENGTH * place;
	struct dedakhumi_task task = {record[DEDAKHUMI_AT_TASK_NEXUS], record[DEDAKHUMI_AT_TASK_ATTRIBUTE], record[DEDAKHUMI_AT_TASK_STATE],
		record[DEDAKHUMI_AT_TASK_CONTROL], dedakhumi_get_tag(record + DEDAKHUMI_AT_TASK_TAG)};
	return task;
}

#ifdef __cplusplus
}
#endif

#endif
