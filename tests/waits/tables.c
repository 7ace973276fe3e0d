#include "tables.h"

#include <stdio.h>

#include "dedakhumi.h"
#include "figures.h"

enum { SIMPLE = DEDAKHUMI_ATTRIBUTE_SIMPLE, HEAD_OF_QUEUE = DEDAKHUMI_ATTRIBUTE_HEAD_OF_QUEUE };
enum { COLUMNS = 8, ROWS = 10 };

/* The exact figures of one kind: a column for each a, a row for each b. */
struct grid {
	const char *corner;
	uint8_t attribute;
	unsigned heads[COLUMNS], others[ROWS];
};

static const struct grid simple_or_ordered = {
	"SIMPLE or ORDERED", SIMPLE, {0, 2, 4, 8, 16, 32, 48, 63}, {0, 1, 2, 4, 8, 16, 32, 48, 62, 63}};
static const struct grid head_of_queue = {
	"HEAD OF QUEUE", HEAD_OF_QUEUE, {0, 1, 2, 4, 8, 16, 32, 50}, {0, 1, 2, 3, 4, 5, 8, 9, 13, 63}};

struct example {
	uint8_t attribute;
	struct older older;
};

static const struct example examples[] = {
	{SIMPLE, {0, 0}}, {SIMPLE, {0, 8}}, {SIMPLE, {2, 8}}, {SIMPLE, {8, 2}}, {SIMPLE, {16, 16}}, {SIMPLE, {63, 0}}, {SIMPLE, {0, 63}},
	{HEAD_OF_QUEUE, {0, 0}}, {HEAD_OF_QUEUE, {0, 8}}, {HEAD_OF_QUEUE, {2, 8}}, {HEAD_OF_QUEUE, {8, 2}}, {HEAD_OF_QUEUE, {16, 16}},
	{HEAD_OF_QUEUE, {63, 0}}, {HEAD_OF_QUEUE, {0, 63}}};

enum { EXAMPLES = sizeof examples / sizeof examples[0] };

/* The worked example: what a command takes at the disk, in milliseconds. */
enum { MEAN = 6, WORST = 40 };
static const struct example worked[] = {{SIMPLE, {2, 8}}, {HEAD_OF_QUEUE, {2, 8}}, {SIMPLE, {0, 63}}, {HEAD_OF_QUEUE, {63, 0}}};

enum { WORKED = sizeof worked / sizeof worked[0] };

static void print_rule(unsigned columns)
{
	for (unsigned i = 0; i < columns; i++)
		printf("|---");
	printf("|\n");
}

static void print_head(const struct grid *grid)
{
	printf("| %s |", grid->corner);
	for (unsigned i = 0; i < COLUMNS; i++)
		printf(" a = %u |", grid->heads[i]);
	printf("\n");
	print_rule(1 + COLUMNS);
}

/* Empty where there is no room for so many. */
static void print_row(const struct grid *grid, unsigned others)
{
	printf("| b = %u |", others);
	for (unsigned i = 0; i < COLUMNS; i++) {
		struct older older = {grid->heads[i], others};
		if (older.heads + older.others < DEDAKHUMI_TASKS)
			printf(" %u |", exact_figure(older, grid->attribute));
		else
			printf(" |");
	}
	printf("\n");
}

static void print_grid(const struct grid *grid)
{
	print_head(grid);
	for (unsigned i = 0; i < ROWS; i++)
		print_row(grid, grid->others[i]);
}

static const char *name_of(uint8_t attribute)
{
	return attribute == HEAD_OF_QUEUE ? head_of_queue.corner : simple_or_ordered.corner;
}

static void print_examples(void)
{
	printf("| the task | a | b | RULES 23.5 | RULES 23.7 | RULES 23.8 |\n");
	print_rule(6);
	for (unsigned i = 0; i < EXAMPLES; i++) {
		struct older older = examples[i].older;
		uint8_t attribute = examples[i].attribute;
		printf("| %s | %u | %u | %u | %u | %u |\n", name_of(attribute), older.heads, older.others, first_figure(older),
			asked_figure(older, attribute), exact_figure(older, attribute));
	}
}

static void print_worked(void)
{
	printf("| the task | a | b | turns | at %d ms each | at %d ms each | so by RULES 23.5 |\n", MEAN, WORST);
	print_rule(7);
	for (unsigned i = 0; i < WORKED; i++) {
		struct older older = worked[i].older;
		unsigned turns = exact_figure(older, worked[i].attribute);
		printf("| %s | %u | %u | %u | %u ms | %u ms | %u ms |\n", name_of(worked[i].attribute), older.heads, older.others, turns, MEAN * turns,
			WORST * turns, WORST * first_figure(older));
	}
}

void print_tables(void)
{
	print_grid(&simple_or_ordered);
	print_grid(&head_of_queue);
	print_examples();
	print_worked();
}
