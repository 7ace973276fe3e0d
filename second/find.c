/* Which task an event names, and whose turn it is. */
#include "parts.h"

size_t second_find(const uint8_t *table, const uint8_t *event)
{
	for (size_t place = 0; place < table[HEADER_COUNT]; place++) {
		const uint8_t *task = table + task_offset(place);

		if (task[TASK_NEXUS] == event[EVENT_NEXUS] && memcmp(task + TASK_TAG, event + EVENT_TAG, TAG_LENGTH) == 0)
			return place;
	}
	return NO_TASK;
}

/* A well-formed table has its ACA task, if any, as the youngest. */
size_t second_aca_task(const uint8_t *table)
{
	size_t count = table[HEADER_COUNT];

	if (count == 0 || table[task_offset(count - 1) + TASK_ATTRIBUTE] != ACA)
		return NO_TASK;
	return count - 1;
}

/* Without ACA every HEAD OF QUEUE task is enabled. */
static size_t oldest_head_of_queue(const uint8_t *table)
{
	for (size_t place = 0; place < table[HEADER_COUNT]; place++)
		if (table[task_offset(place) + TASK_ATTRIBUTE] == HEAD_OF_QUEUE)
			return place;
	return NO_TASK;
}

/*
 * Without ACA the oldest task is enabled whatever its attribute. If it is HEAD OF QUEUE, no SIMPLE or ORDERED task is
 * eligible, so it alone tells whether one of those is enabled.
 */
size_t second_turn(const uint8_t *table)
{
	size_t head;

	if (table[HEADER_ACA] != 0)
		return second_aca_task(table);
	if (table[HEADER_COUNT] == 0)
		return NO_TASK;
	if (table[HEADER_RUN] == RUN_LIMIT)
		return 0;
	head = oldest_head_of_queue(table);
	return head == NO_TASK ? 0 : head;
}
