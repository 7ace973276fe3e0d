/* A row for each record, and one row `*` for a run of rows equal to the one before, so that nothing is left out. Bytes behind a whole table or
   report are printed as if its records went on. */
#include "dump.h"

#include <dedakhumi.h>

#include <stdbool.h>
#include <stdio.h>
#include <string.h>

/* From the places and lengths of dedakhumi.h, so that no width stands here. */
enum {
	HEADER_WIDTH = DEDAKHUMI_NEXUS_OFFSET - DEDAKHUMI_HEADER_OFFSET,
	NEXUS_WIDTH = (DEDAKHUMI_TASK_OFFSET - DEDAKHUMI_NEXUS_OFFSET) / DEDAKHUMI_NEXUSES,
	TASK_WIDTH = (DEDAKHUMI_TABLE_LENGTH - DEDAKHUMI_TASK_OFFSET) / DEDAKHUMI_TASKS,
	ENDED_WIDTH = DEDAKHUMI_REPORT_LENGTH / DEDAKHUMI_TASKS
};

struct stretch {
	const uint8_t *bytes;
	size_t length;
};

/* The width of the record that begins at that byte. */
typedef size_t width_at(size_t from);

static size_t width_in_table(size_t from)
{
	if (from < DEDAKHUMI_NEXUS_OFFSET)
		return HEADER_WIDTH;
	return from < DEDAKHUMI_TASK_OFFSET ? NEXUS_WIDTH : TASK_WIDTH;
}

static size_t width_in_report(size_t from)
{
	(void)from;
	return ENDED_WIDTH;
}

void print_hexes(const uint8_t *bytes, size_t length)
{
	for (size_t i = 0; i < length; i++)
		printf(" %02X", bytes[i]);
}

static struct stretch row_at(struct stretch buffer, size_t from, size_t width)
{
	size_t rest = buffer.length - from;
	return (struct stretch){buffer.bytes + from, rest < width ? rest : width};
}

static bool same(struct stretch first, struct stretch second)
{
	return first.length == second.length && memcmp(first.bytes, second.bytes, first.length) == 0;
}

static void print_row(struct stretch row)
{
	printf(" ");
	print_hexes(row.bytes, row.length);
	printf("\n");
}

/* The rows do not show how long a last run is; the count of bytes does. */
static void print_dump(const char *title, struct stretch buffer, width_at *width)
{
	struct stretch row, before = {buffer.bytes, 0};
	bool in_run = false;
	printf("%s, %zu bytes\n", title, buffer.length);
	for (size_t from = 0; from < buffer.length; from += row.length, before = row) {
		row = row_at(buffer, from, width(from));
		if (!same(row, before))
			print_row(row);
		else if (!in_run)
			printf("  *\n");
		in_run = same(row, before);
	}
}

void print_table(const uint8_t *bytes, size_t length)
{
	print_dump("table", (struct stretch){bytes, length}, width_in_table);
}

void print_report(const uint8_t *bytes, size_t length)
{
	print_dump("report", (struct stretch){bytes, length}, width_in_report);
}
