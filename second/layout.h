/* Records, numbers in bytes and answer numbers (RULES 13 to 16 and 18.1). */
#ifndef SECOND_LAYOUT_H
#define SECOND_LAYOUT_H

#include <stdbool.h>
#include <stddef.h>
#include <stdint.h>
#include <string.h>

enum { NEXUS_COUNT = 8, TASK_LIMIT = 64, RUN_LIMIT = 4 };

/* How wide a tag is stands here and nowhere else: its type, and its bytes where a record is listed (big-endian). */
typedef uint16_t tag_number;
#define TAG_BYTES(tag) (uint8_t)((tag) >> 8), (uint8_t)(tag)

enum { MARK_LENGTH = 2, TAG_LENGTH = sizeof(tag_number) };
/* How many tags there are. */
#define TAG_COUNT ((uint64_t)1 << 8 * TAG_LENGTH)

#define HEADER_MARK "\x54\x48"
#define NEXUS_MARK "\x54\x4E"
#define TASK_MARK "\x54\x54"
#define ENDED_MARK "\x54\x45"
#define EVENT_MARK "\x54\x56"

/* Where each field stands in its record. REST is bytes that are 0. */
enum { HEADER_FORM = 2, HEADER_POLICY, HEADER_COUNT, HEADER_ACA, HEADER_RUN, HEADER_LAST, HEADER_LENGTH };
enum { NEXUS_NUMBER = 2, NEXUS_PENDING, NEXUS_REST, NEXUS_LENGTH = 8 };
enum { TASK_NEXUS = 2, TASK_ATTRIBUTE, TASK_STATE, TASK_CONTROL, TASK_TAG, TASK_LENGTH = TASK_TAG + TAG_LENGTH };
enum { ENDED_NEXUS = 2, ENDED_STATUS, ENDED_REST, ENDED_TAG = 6, ENDED_LENGTH = ENDED_TAG + TAG_LENGTH };
enum { EVENT_KIND = 2, EVENT_NEXUS, EVENT_FIRST, EVENT_SECOND, EVENT_TAG, EVENT_LENGTH = EVENT_TAG + TAG_LENGTH };

enum {
	NEXUS_RECORDS = HEADER_LENGTH,
	TASK_RECORDS = NEXUS_RECORDS + NEXUS_COUNT * NEXUS_LENGTH,
	TABLE_LENGTH = TASK_RECORDS + TASK_LIMIT * TASK_LENGTH,
	REPORT_LENGTH = TASK_LIMIT * ENDED_LENGTH
};

enum { POLICY_QERR = 0x03, POLICY_TAS = 0x04 };
enum { QERR_NONE = 0, QERR_ALL = 1, QERR_BAD = 2, QERR_NEXUS = 3 };
enum { SIMPLE = 0, HEAD_OF_QUEUE = 1, ORDERED = 2, ACA = 4 };
enum { DORMANT = 1, ENABLED = 2, BLOCKED = 3 };
enum { CONTROL_NACA = 0x01, COMMAND_EXEMPT = 0x02 };

enum {
	PENDING_POWER_ON = 0x01,
	PENDING_HARD_RESET = 0x02,
	PENDING_LOGICAL_UNIT_RESET = 0x04,
	PENDING_NEXUS_LOSS = 0x08,
	PENDING_COMMANDS_CLEARED = 0x10,
	PENDING_ALL = 0x1F
};

enum { COMMAND = 1, COMPLETION, MANAGEMENT, CONDITION };
enum { ABORT_TASK = 1, ABORT_TASK_SET, CLEAR_TASK_SET, CLEAR_ACA, LOGICAL_UNIT_RESET };
enum { POWER_ON = 1, HARD_RESET, NEXUS_LOSS };

enum {
	STATUS_GOOD = 0x00,
	STATUS_CHECK_CONDITION = 0x02,
	STATUS_BUSY = 0x08,
	STATUS_RESERVATION_CONFLICT = 0x18,
	STATUS_TASK_SET_FULL = 0x28,
	STATUS_ACA_ACTIVE = 0x30,
	STATUS_TASK_ABORTED = 0x40,
	STATUS_NONE_SENT = 0xFF
};

enum {
	ANSWER_DONE,
	ANSWER_BAD_TABLE,
	ANSWER_BAD_REPORT_LENGTH,
	ANSWER_BAD_EVENT,
	ANSWER_BAD_NEXUS,
	ANSWER_NO_SUCH_TASK,
	ANSWER_NOT_ENABLED,
	ANSWER_ENDED_AT_ENTRY,
	ANSWER_REJECTED,
	ANSWER_BAD_POLICY
};

static inline bool has_mark(const uint8_t *record, const char *mark)
{
	return memcmp(record, mark, MARK_LENGTH) == 0;
}

static inline tag_number read_tag(const uint8_t *bytes)
{
	tag_number tag = 0;

	for (size_t place = 0; place < TAG_LENGTH; place++)
		tag = (tag_number)(tag << 8 | bytes[place]);
	return tag;
}

static inline void write_tag(uint8_t *bytes, tag_number tag)
{
	const uint8_t tag_bytes[] = { TAG_BYTES(tag) };

	_Static_assert(sizeof tag_bytes == TAG_LENGTH, "TAG_BYTES lists as many bytes as a tag has");
	memcpy(bytes, tag_bytes, TAG_LENGTH);
}

static inline size_t nexus_offset(size_t nexus)
{
	return NEXUS_RECORDS + nexus * NEXUS_LENGTH;
}

static inline size_t task_offset(size_t place)
{
	return TASK_RECORDS + place * TASK_LENGTH;
}

static const uint8_t unused_task[TASK_LENGTH] = { 0x54, 0x54 };

static inline bool is_unused(const uint8_t *task)
{
	return memcmp(task, unused_task, TASK_LENGTH) == 0;
}

static inline void write_unused(uint8_t *task)
{
	memcpy(task, unused_task, TASK_LENGTH);
}

#endif
