#include "wishes.h"

#include "names.h"

struct wish read_of(unsigned tile)
{
	return (struct wish){.action = ACTION_READ, .tile = tile, .attribute = DEDAKHUMI_ATTRIBUTE_SIMPLE};
}

struct wish fill_of(unsigned tile)
{
	return (struct wish){.action = ACTION_FILL, .tile = tile, .attribute = DEDAKHUMI_ATTRIBUTE_SIMPLE};
}

struct wish write_of(unsigned tile, int reading)
{
	return (struct wish){.action = ACTION_WRITE, .tile = tile, .reading = reading, .attribute = DEDAKHUMI_ATTRIBUTE_SIMPLE};
}

struct wish urgent_inquiry(void)
{
	return (struct wish){
		.action = ACTION_INQUIRY, .attribute = DEDAKHUMI_ATTRIBUTE_HEAD_OF_QUEUE, .control = DEDAKHUMI_CONTROL_EXEMPT};
}

struct wish repair_of(unsigned tile)
{
	return (struct wish){.action = ACTION_READ, .tile = tile, .attribute = DEDAKHUMI_ATTRIBUTE_ACA};
}

struct wish ordered(struct wish wish)
{
	wish.attribute = DEDAKHUMI_ATTRIBUTE_ORDERED;
	return wish;
}

struct wish with_naca(struct wish wish)
{
	wish.control |= DEDAKHUMI_CONTROL_NACA;
	return wish;
}

void add_wish(struct text *text, const struct wish *wish)
{
	static const struct name names[] = {{ACTION_READ, "read"}, {ACTION_FILL, "fill"}, {ACTION_WRITE, "write"},
		{ACTION_INQUIRY, "INQUIRY"}, {ACTION_REQUEST_SENSE, "REQUEST SENSE"}, {0, NULL}};
	text_add(text, "%s", name_in(names, (uint8_t)wish->action));
	if (wish->action <= ACTION_WRITE)
		text_add(text, " tile %u", wish->tile);
}
