/* What the files of the second implementation use of each other. A table here is well formed unless said. */
#ifndef SECOND_PARTS_H
#define SECOND_PARTS_H

#include "layout.h"
#include "second.h"

/* A place in the table that stands for "no task". */
#define NO_TASK ((size_t)TASK_LIMIT)

/* Which tasks end besides the one that the event names; each scope holds the one before it. */
enum ending_scope { ENDS_NO_OTHER, ENDS_NEXUS, ENDS_ALL };

struct ending {
	size_t named;
	uint8_t named_status;
	enum ending_scope scope;
	uint8_t causing_nexus;
	/* True for CLEAR TASK SET and QERR: other nexuses get TASK ABORTED or pending bit 4. */
	bool tells_others;
};

/* Takes any TABLE_LENGTH bytes. */
bool second_well_formed(const uint8_t *table);
/* Takes any EVENT_LENGTH bytes; the nexus may still be above 7. */
bool second_good_event(const uint8_t *event);
bool second_good_policy(uint8_t policy);

size_t second_find(const uint8_t *table, const uint8_t *event);
size_t second_aca_task(const uint8_t *table);
size_t second_turn(const uint8_t *table);

/* Writes the report whole, closes the gaps, and gives the number of tasks ended. States are left to the two below. */
uint8_t second_end_tasks(uint8_t *table, uint8_t *report, const struct ending *ending);
void second_enable_eligible(uint8_t *table);
void second_begin_aca(uint8_t *table, uint8_t nexus);

/* RULES 4.5: whom a CHECK CONDITION takes along, that of a task and that of a command ended at entry. */
enum ending_scope second_qerr_scope(uint8_t policy);

struct dedakhumi_answer second_command(uint8_t *table, uint8_t *report, const uint8_t *event);
struct dedakhumi_answer second_completion(uint8_t *table, uint8_t *report, const uint8_t *event);
struct dedakhumi_answer second_management(uint8_t *table, uint8_t *report, const uint8_t *event);
struct dedakhumi_answer second_condition(uint8_t *table, uint8_t *report, const uint8_t *event);

/* RULES 2.2 to 2.4; barrier says that an older task is HEAD OF QUEUE or ORDERED. */
static inline bool is_eligible(uint8_t attribute, size_t place, bool barrier)
{
	switch (attribute) {
	case SIMPLE:
		return !barrier;
	case HEAD_OF_QUEUE:
		return true;
	case ORDERED:
		return place == 0;
	default:
		return false;
	}
}

static inline bool is_barrier(uint8_t attribute)
{
	return attribute == HEAD_OF_QUEUE || attribute == ORDERED;
}

static inline struct dedakhumi_answer plain_answer(uint8_t answer)
{
	return (struct dedakhumi_answer){ .answer = answer };
}

static inline struct dedakhumi_answer done(uint8_t ended)
{
	return (struct dedakhumi_answer){ .answer = ANSWER_DONE, .ended = ended };
}

#endif
