/* Tables built directly: well formed, reachable or not. */
#ifndef COMPARE_TABLES_H
#define COMPARE_TABLES_H

#include "layout.h"

/* The records of a table by number: the header, the nexus records, the task records. What lies past a table is taken for more tasks. */
enum { TABLE_RECORDS = 1 + NEXUS_COUNT + TASK_LIMIT };

struct record {
	size_t offset;
	size_t length;
};

struct record table_record(size_t number);
/* A header with no task, nexus records without pending bits, unused task records. */
void table_empty(uint8_t *table, uint8_t policy);
/* Adds a youngest task; its state is left to the caller. */
uint8_t *table_add(uint8_t *table, uint8_t nexus, uint8_t attribute, uint8_t control, tag_number tag);
/* The states that a table without ACA must have. */
void table_enable_eligible(uint8_t *table);
/* A random well-formed table, in an ACA with eligible tasks that are dormant too. */
void table_random(uint64_t *random, uint8_t *table);
/* One of the six good policies. */
uint8_t good_policy(unsigned number);

enum { GOOD_POLICIES = 6 };

#endif
