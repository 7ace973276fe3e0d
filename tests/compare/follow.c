/* The part that follows each kind of stream, from fresh and from lent tables, under each good policy. */
#include "random.h"
#include "session.h"
#include "streams.h"
#include "tables.h"

enum { STREAM_LENGTH = 256, STREAMS_FRESH = 200, STREAMS_LENT = 200 };

static void follow(struct session *session, const struct stream *stream)
{
	session_open(session);
	for (size_t number = 0; number < STREAM_LENGTH; number++) {
		struct step *step = session_new_step(session);

		stream->next(&session->random, run_table(&session->run, &session->trial), step);
		session_apply(session);
	}
}

static void follow_fresh(struct session *session, const struct stream *stream, uint8_t policy)
{
	struct trial *trial = session_new_trial(session);

	random_bytes(&session->random, trial->table, TABLE_LENGTH);
	trial->starts = true;
	trial->policy = policy;
	trial->well_formed = true;
	follow(session, stream);
}

static void follow_lent(struct session *session, const struct stream *stream, uint8_t policy)
{
	struct trial *trial = session_new_trial(session);

	table_random(&session->random, trial->table);
	trial->table[HEADER_POLICY] = policy;
	trial->well_formed = true;
	follow(session, stream);
}

static void follow_policies(struct session *session, const struct stream *stream)
{
	unsigned long fresh = session_times(session, STREAMS_FRESH);
	unsigned long lent = session_times(session, STREAMS_LENT);

	for (unsigned number = 0; number < GOOD_POLICIES; number++) {
		for (unsigned long time = 0; time < fresh; time++)
			follow_fresh(session, stream, good_policy(number));
		for (unsigned long time = 0; time < lent; time++)
			follow_lent(session, stream, good_policy(number));
	}
}

void compare_streams(struct session *session)
{
	for (unsigned number = 0; number < STREAM_COUNT; number++) {
		session_begin_part(session, streams[number].name);
		follow_policies(session, &streams[number]);
	}
}
