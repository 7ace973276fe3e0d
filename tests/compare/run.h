/* Runs a trial on both sides and compares every byte after every event. */
#ifndef COMPARE_RUN_H
#define COMPARE_RUN_H

#include "trial.h"

struct side {
	uint8_t (*start)(uint8_t *table, size_t table_len, uint8_t policy);
	struct dedakhumi_answer (*apply)(uint8_t *table, size_t table_len, uint8_t *report, size_t report_len,
		const uint8_t *event, size_t event_len);
	struct dedakhumi_turn (*name)(const uint8_t *table, size_t table_len);
	uint8_t *table_room;
	uint8_t *report_room;
	uint8_t *event_room;
};

enum { ARCHIVE, SECOND, SIDE_COUNT };

struct run {
	struct side sides[SIDE_COUNT];
	struct difference difference;
};

void run_prepare(struct run *run);
/* Each is true while the two sides agree. */
bool run_open(struct run *run, const struct trial *trial);
bool run_step(struct run *run, const struct trial *trial, size_t step);
bool run_whole(struct run *run, const struct trial *trial);
/* Not a parting of the sides: both refuse a table that the comparison built well formed. */
bool run_refused_by_both(const struct run *run);
/* The table as it stands on the archive's side. */
const uint8_t *run_table(const struct run *run, const struct trial *trial);

#endif
