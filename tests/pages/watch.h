/* A fault of memory ends the test with the case that it came in. */
#ifndef PAGES_WATCH_H
#define PAGES_WATCH_H

#include "fence.h"

/* The three fences whose pages a fault is looked up in. */
void watch_faults(const struct fence *table, const struct fence *report, const struct fence *event);
/* The case that is under way; the text has to stay until the next. */
void watch_case(const char *text);
_Noreturn void watch_fail(const char *why);

#endif
