/* The tables of docs/WAITS.md. */
#ifndef WAITS_TABLES_H
#define WAITS_TABLES_H

void print_tables(void);

#endif
