/* The layouts that the archive's code was compiled for, and the sums of lengths. Compiled as C11 and as C++17; there is nothing to run. A line that
   has to change here is a change of the interface, and DEDAKHUMI_INTERFACE goes up with it. */
#include <assert.h>

#include "dedakhumi.h"

static_assert(sizeof(struct dedakhumi_answer) == 6, "six bytes");
static_assert(offsetof(struct dedakhumi_answer, answer) == 0, "answer");
static_assert(offsetof(struct dedakhumi_answer, status) == 1, "status");
static_assert(offsetof(struct dedakhumi_answer, key) == 2, "key");
static_assert(offsetof(struct dedakhumi_answer, code) == 3, "code");
static_assert(offsetof(struct dedakhumi_answer, qualifier) == 4, "qualifier");
static_assert(offsetof(struct dedakhumi_answer, ended) == 5, "ended");

static_assert(sizeof(struct dedakhumi_turn) == 6, "six bytes, one of them unused");
static_assert(offsetof(struct dedakhumi_turn, answer) == 0, "answer");
static_assert(offsetof(struct dedakhumi_turn, found) == 1, "found");
static_assert(offsetof(struct dedakhumi_turn, nexus) == 2, "nexus");
static_assert(offsetof(struct dedakhumi_turn, tag) == 4, "tag");

static_assert(DEDAKHUMI_NEXUS_OFFSET == DEDAKHUMI_HEADER_OFFSET + DEDAKHUMI_HEADER_LENGTH, "the header is one record");
static_assert(DEDAKHUMI_TASK_OFFSET == DEDAKHUMI_NEXUS_OFFSET + DEDAKHUMI_NEXUSES * DEDAKHUMI_NEXUS_LENGTH, "eight nexus records");
static_assert(DEDAKHUMI_TABLE_LENGTH == DEDAKHUMI_TASK_OFFSET + DEDAKHUMI_TASKS * DEDAKHUMI_TASK_LENGTH, "64 task records");
static_assert(DEDAKHUMI_REPORT_LENGTH == DEDAKHUMI_TASKS * DEDAKHUMI_ENDED_LENGTH, "64 ended records");

static_assert(DEDAKHUMI_INTERFACE == 1, "the number that goes with these layouts");
static_assert(sizeof(dedakhumi_tag) == 2, "a tag's bytes");
static_assert(sizeof(struct dedakhumi_event) == DEDAKHUMI_EVENT_LENGTH, "an event is its bytes and no more");
static_assert(DEDAKHUMI_AT_TASK_TAG + sizeof(dedakhumi_tag) == DEDAKHUMI_TASK_LENGTH, "a task record ends with its tag");
static_assert(DEDAKHUMI_AT_ENDED_TAG + sizeof(dedakhumi_tag) == DEDAKHUMI_ENDED_LENGTH, "an ended record ends with its tag");
static_assert(DEDAKHUMI_AT_EVENT_TAG + sizeof(dedakhumi_tag) == DEDAKHUMI_EVENT_LENGTH, "an event ends with its tag");
