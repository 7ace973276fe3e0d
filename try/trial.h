/* A clear line tried on the table, and what it did, shown on standard output. */
#ifndef TRIAL_H
#define TRIAL_H

#include "lines.h"
#include "session.h"

void try_start(struct session *session, const struct line *line);
void try_record(struct session *session, const struct line *line);

#endif
