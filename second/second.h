/* The three operations (RULES 19) a second time, in C by hand: what the proved archive is compared and measured with. */
#ifndef SECOND_H
#define SECOND_H

#include "dedakhumi.h"

uint8_t second_start(uint8_t *table, size_t table_len, uint8_t policy);
struct dedakhumi_answer second_apply(uint8_t *table, size_t table_len, uint8_t *report, size_t report_len,
	const uint8_t *event, size_t event_len);
struct dedakhumi_turn second_name(const uint8_t *table, size_t table_len);

#endif
