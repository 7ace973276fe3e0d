/* Every first byte with each kind, and the values of the other fields at which a clause of RULES 16 turns. */
#include "events.h"
#include "random.h"
#include "session.h"
#include "tables.h"

static const uint8_t seconds[] = { 0, 1, 2, 3, 4, 5, 8, 16, 32, 64, 128, 129, 254, 255 };
static const uint8_t nexuses[] = { 0, 1, NEXUS_COUNT - 1, NEXUS_COUNT, 128, 255 };

enum {
	SECONDS = sizeof seconds / sizeof *seconds,
	NEXUSES = sizeof nexuses / sizeof *nexuses,
	TAGS = TAG_LENGTH + 2,
	KINDS = 6
};

/* 0, a bit in each byte alone, the highest. */
static tag_number tag_at(unsigned number)
{
	if (number == 0)
		return 0;
	return (tag_number)(number <= TAG_LENGTH ? (uint64_t)1 << 8 * (number - 1) : TAG_COUNT - 1);
}

static void apply_every_tag(struct session *session, uint8_t kind, uint8_t nexus, uint8_t first, uint8_t second)
{
	for (unsigned tag = 0; tag < TAGS; tag++) {
		session_reopen(session);
		event_write(session_new_step(session), kind, nexus, first, second, tag_at(tag));
		session_apply(session);
	}
}

static void apply_every_second(struct session *session, uint8_t kind, uint8_t nexus, uint8_t first)
{
	for (size_t second = 0; second < SECONDS; second++)
		apply_every_tag(session, kind, nexus, first, seconds[second]);
}

/* A table of its own for each kind and first byte, with few tags so that some of the tasks are met. */
static void apply_every_nexus(struct session *session, uint8_t kind, uint8_t first)
{
	struct trial *trial = session_new_trial(session);

	table_random(&session->random, trial->table);
	trial->well_formed = true;
	session_open(session);
	for (size_t nexus = 0; nexus < NEXUSES; nexus++)
		apply_every_second(session, kind, nexuses[nexus], first);
}

/* A short run has the low first bytes of every kind. */
void compare_every_event(struct session *session)
{
	unsigned long choices = session_times(session, KINDS * 256);

	session_begin_part(session, "every event");
	for (unsigned long choice = 0; choice < choices; choice++)
		apply_every_nexus(session, choice % KINDS, (uint8_t)(choice / KINDS));
}
