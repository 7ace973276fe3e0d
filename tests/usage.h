/* For programs that take no argument. */
#ifndef USAGE_H
#define USAGE_H

#include <stdio.h>
#include <stdlib.h>

static inline void take_no_argument(const char *program, int argument_count)
{
	if (argument_count > 1) {
		fprintf(stderr, "usage: %s, without an argument\n", program);
		exit(2);
	}
}

#endif
