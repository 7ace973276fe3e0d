/*
 * Compares the proved archive with the second implementation: build/tests/compare [FACTOR [SEED]].
 * It is linked from every C file of tests/compare and second and from the archive.
 * FACTOR multiplies the length of the run and may be below 1; the same SEED makes the same run.
 */
#include "session.h"

#include <stdio.h>
#include <stdlib.h>

enum { DEFAULT_SEED = 1 };

static bool read_arguments(int count, char **arguments, struct session *session)
{
	char *end = NULL;

	session->factor = 1;
	session->seed = DEFAULT_SEED;
	if (count > 3)
		return false;
	if (count > 1) {
		session->factor = strtod(arguments[1], &end);
		if (end == arguments[1] || *end != '\0' || !(session->factor > 0))
			return false;
	}
	if (count > 2) {
		session->seed = strtoull(arguments[2], &end, 10);
		if (end == arguments[2] || *end != '\0')
			return false;
	}
	session->random = session->seed;
	return true;
}

int main(int count, char **arguments)
{
	static struct session session;

	if (!read_arguments(count, arguments, &session)) {
		fprintf(stderr, "usage: compare [FACTOR [SEED]]\n");
		return 2;
	}
	run_prepare(&session.run);
	compare_starts(&session);
	compare_lengths(&session);
	compare_every_event(&session);
	compare_every_end(&session);
	compare_small_tables(&session);
	compare_streams(&session);
	compare_damaged_tables(&session);
	printf("compare: %lu events, %lu tables, no difference\n", session.events, session.tables);
	return 0;
}
