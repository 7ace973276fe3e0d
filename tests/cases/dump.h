#ifndef DUMP_H
#define DUMP_H

#include <stddef.h>
#include <stdint.h>

/* Each byte as the player writes it: a space and two hex digits in capitals. */
void print_hexes(const uint8_t *bytes, size_t length);

/* A buffer as hexdump prints it, with a row for each record. */
void print_table(const uint8_t *bytes, size_t length);
void print_report(const uint8_t *bytes, size_t length);

#endif
