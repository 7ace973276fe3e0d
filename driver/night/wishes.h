/* What the hosts ask of the disk. */
#ifndef WISHES_H
#define WISHES_H

#include "dedakhumi.h"
#include "text.h"

enum action {
	ACTION_READ,
	ACTION_FILL,
	ACTION_WRITE,
	ACTION_INQUIRY,
	ACTION_REQUEST_SENSE
};

/* `reading` is what a write brings; `control` is that of dedakhumi_command_event. */
struct wish {
	enum action action;
	unsigned tile;
	int reading;
	uint8_t attribute, control;
};

/* These three are SIMPLE. */
struct wish read_of(unsigned tile);
struct wish fill_of(unsigned tile);
struct wish write_of(unsigned tile, int reading);
/* HEAD OF QUEUE and exempt. */
struct wish urgent_inquiry(void);
/* Attribute ACA, not exempt. */
struct wish repair_of(unsigned tile);
struct wish ordered(struct wish wish);
struct wish with_naca(struct wish wish);
/* What is wished, as "read tile 3". */
void add_wish(struct text *text, const struct wish *wish);

#endif
