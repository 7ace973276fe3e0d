#include "failure.h"

#include <errno.h>
#include <stdio.h>
#include <string.h>

bool failed(const char *file)
{
	fprintf(stderr, "try: %s: %s\n", file, strerror(errno));
	return false;
}

bool flush_output(void)
{
	return (fflush(stdout) == 0 && !ferror(stdout)) || failed("standard output");
}
