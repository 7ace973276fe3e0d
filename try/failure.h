/* What the system would not do. */
#ifndef FAILURE_H
#define FAILURE_H

#include <stdbool.h>

/* False, after a line on standard error with the file and the system's reason (errno). */
bool failed(const char *file);
/* What was written so far goes out; false, after such a line, if it cannot. */
bool flush_output(void);

#endif
