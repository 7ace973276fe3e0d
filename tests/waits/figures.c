#include "figures.h"

#include "dedakhumi.h"

unsigned first_figure(struct older older)
{
	return (IN_A_ROW + 1) * (older.heads + older.others + 1);
}

unsigned asked_figure(struct older older, uint8_t attribute)
{
	if (attribute == DEDAKHUMI_ATTRIBUTE_HEAD_OF_QUEUE)
		return older.heads + older.others + 1;
	return older.heads + (IN_A_ROW + 1) * (older.others + 1);
}

static unsigned smaller(unsigned left, unsigned right)
{
	return left < right ? left : right;
}

/* One of the others at once, and one after each row. */
static unsigned head_figure(struct older older)
{
	return older.heads + smaller(older.others, 1 + older.heads / IN_A_ROW) + 1;
}

/* The older HEAD OF QUEUE tasks go before the others, or newcomers up to a row. */
static unsigned other_figure(struct older older)
{
	unsigned before = older.heads > IN_A_ROW ? older.heads : IN_A_ROW;
	return before + (IN_A_ROW + 1) * older.others + 1;
}

/* The largest: with 63 others and no room for a newcomer, and with 63 of its own kind. */
unsigned exact_figure(struct older older, uint8_t attribute)
{
	if (attribute == DEDAKHUMI_ATTRIBUTE_HEAD_OF_QUEUE)
		return smaller(head_figure(older), DEDAKHUMI_TASKS);
	return smaller(other_figure(older), (IN_A_ROW + 1) * (DEDAKHUMI_TASKS - 1) + 1);
}
