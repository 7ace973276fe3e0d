/* totals a second time, by hand and over the second implementation: what the proved program is compared with. build/tests/totals-twin LOG...
   A log is read whole before it is played, so that nothing here knows of stretches. */
#include <errno.h>
#include <inttypes.h>
#include <stdio.h>
#include <stdlib.h>

#include "layout.h"
#include "second.h"

/* tests/totals/faults puts faulty versions of this in the program's place: then it says what totals says, and ends as totals does. */
#ifdef AS_TOTALS
#define WITHOUT_LOGS "totals: name the logs to add up: totals LOG..."
enum { WRONG_CALL = 0, FAILED = 0 };
#else
#define WITHOUT_LOGS "usage: totals-twin LOG..."
enum { WRONG_CALL = 2, FAILED = 1 };
#endif

enum { STATUSES = 256, FIRST_ROOM = 4096 };

struct log {
	uint8_t *bytes;
	size_t length;
};

struct tally {
	uint64_t accepted, ends[STATUSES], entry[STATUSES], largest, left;
};

static uint8_t *enlarge(uint8_t *bytes, size_t room)
{
	bytes = realloc(bytes, room);
	if (bytes == NULL) {
		fprintf(stderr, "totals-twin: no memory for a log of %zu bytes\n", room);
		exit(1);
	}
	return bytes;
}

static bool read_to_end(FILE *file, struct log *log)
{
	for (size_t room = FIRST_ROOM; !feof(file) && !ferror(file); room *= 2) {
		log->bytes = enlarge(log->bytes, room);
		log->length += fread(log->bytes + log->length, 1, room - log->length, file);
	}
	return !ferror(file);
}

/* A folder can be opened, and fails at the first read. */
static bool read_log(const char *name, struct log *log)
{
	FILE *file = fopen(name, "rb");
	bool whole = file != NULL && read_to_end(file, log);
	if (file != NULL)
		fclose(file);
	return whole;
}

static void count_ends(struct tally *tally, const uint8_t *report, size_t ended)
{
	for (size_t place = 0; place < ended; place++)
		tally->ends[report[place * ENDED_LENGTH + ENDED_STATUS]]++;
}

/* An overlapped command ends others and is ended itself, so one event can add to both. */
static void play_piece(struct tally *tally, uint8_t *table, const uint8_t *piece, size_t length)
{
	uint8_t report[REPORT_LENGTH];
	struct dedakhumi_answer answer = second_apply(table, TABLE_LENGTH, report, sizeof report, piece, length);
	count_ends(tally, report, answer.ended);
	if (answer.answer == ANSWER_ENDED_AT_ENTRY)
		tally->entry[answer.status]++;
	if (answer.answer == ANSWER_DONE && piece[EVENT_KIND] == COMMAND)
		tally->accepted++;
	if (table[HEADER_COUNT] > tally->largest)
		tally->largest = table[HEADER_COUNT];
}

/* What is behind the last whole record is a piece too, and a bad event by its length. */
static void play_log(struct tally *tally, const struct log *log)
{
	uint8_t table[TABLE_LENGTH];
	second_start(table, sizeof table, 0);
	for (size_t at = 0; at < log->length; at += EVENT_LENGTH) {
		size_t length = log->length - at < EVENT_LENGTH ? log->length - at : EVENT_LENGTH;
		play_piece(tally, table, log->bytes + at, length);
	}
	tally->left = table[HEADER_COUNT];
}

static void add_counts(uint64_t *sums, const uint64_t *counts)
{
	for (size_t status = 0; status < STATUSES; status++)
		sums[status] += counts[status];
}

static void add_tally(struct tally *all, const struct tally *tally)
{
	all->accepted += tally->accepted;
	add_counts(all->ends, tally->ends);
	add_counts(all->entry, tally->entry);
	if (tally->largest > all->largest)
		all->largest = tally->largest;
	all->left += tally->left;
}

static void print_counts(const char *what, const uint64_t *counts)
{
	for (unsigned status = 0; status < STATUSES; status++)
		if (counts[status] != 0)
			printf("%s %02X %" PRIu64 "\n", what, status, counts[status]);
}

static void print_tally(const struct tally *tally)
{
	printf("accepted %" PRIu64 "\n", tally->accepted);
	print_counts("ends", tally->ends);
	print_counts("entry", tally->entry);
	printf("largest %" PRIu64 "\n", tally->largest);
	printf("left %" PRIu64 "\n", tally->left);
}

/* After each block, so that a failure ends the run where it comes. */
static void send_printed(void)
{
	if (fflush(stdout) == 0 && !ferror(stdout))
		return;
	fprintf(stderr, "totals: standard output: %s\n", strerror(errno));
	exit(FAILED);
}

static void total_log(const char *name, struct tally *all)
{
	struct log log = {NULL, 0};
	struct tally tally = {0};
	if (read_log(name, &log)) {
		play_log(&tally, &log);
		add_tally(all, &tally);
		printf("log %s\n", name);
		print_tally(&tally);
	} else {
		printf("unreadable %s\n", name);
	}
	free(log.bytes);
	send_printed();
}

int main(int argument_count, char **arguments)
{
	struct tally all = {0};
	if (argument_count < 2) {
		fprintf(stderr, "%s\n", WITHOUT_LOGS);
		return WRONG_CALL;
	}
	for (int number = 1; number < argument_count; number++)
		total_log(arguments[number], &all);
	printf("all\n");
	print_tally(&all);
	send_printed();
	return 0;
}
