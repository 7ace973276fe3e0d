/* By which turn since it was accepted a task has ended, written from the clauses and from nothing that is played. */
#ifndef WAITS_FIGURES_H
#define WAITS_FIGURES_H

#include <stdint.h>

/* What is in the table when a task is accepted: the a HEAD OF QUEUE tasks and the b others of RULES 23.7. */
struct older {
	unsigned heads, others;
};

/* As many HEAD OF QUEUE turns come in a row while another task is enabled (RULES 2.11). */
enum { IN_A_ROW = 4 };

/* RULES 23.5 */
unsigned first_figure(struct older older);
/* RULES 23.7 */
unsigned asked_figure(struct older older, uint8_t attribute);
/* RULES 23.8, for older tasks that a table has room for; the smaller of that figure and the largest there is for any other numbers */
unsigned exact_figure(struct older older, uint8_t attribute);

#endif
