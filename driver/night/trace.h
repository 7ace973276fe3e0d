/* The trace: one line an event. */
#ifndef TRACE_H
#define TRACE_H

#include "names.h"
#include "port.h"

/* `pending` is what waited for each nexus before the event, so that the line can say what is new. */
struct trace {
	unsigned events;
	uint8_t pending[DEDAKHUMI_NEXUSES];
};

void trace_title(const char *title);
/* What the driver does besides, below the event's line. */
void trace_note(const char *format, ...) __attribute__((format(printf, 1, 2)));
/* What waits for each nexus now is nothing new to the next line. For the start of a table, which is no event. */
void trace_remember(struct trace *trace, const struct port *port);
/* `detail` is put behind the event's own words. */
void trace_event(struct trace *trace, const struct port *port, const struct dedakhumi_event *event, const char *detail,
	const struct dedakhumi_answer *answer);

#endif
