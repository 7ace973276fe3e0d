/* The senses that the box gives. */
#include "names.h"

/* `pending` is the bit of a unit attention, and 0 for a sense that none waits for. */
struct sense {
	uint8_t pending, code, qualifier;
	const char *name, *meaning;
};

#define SENSE(code, qualifier) 0x##code, 0x##qualifier, #code "h/" #qualifier "h"
static const struct sense senses[] = {
	{DEDAKHUMI_PENDING_POWER_ON, SENSE(29, 00), "power on"},
	{DEDAKHUMI_PENDING_HARD_RESET, SENSE(29, 02), "hard reset"},
	{DEDAKHUMI_PENDING_LOGICAL_UNIT_RESET, SENSE(29, 03), "logical unit reset"},
	{DEDAKHUMI_PENDING_NEXUS_LOSS, SENSE(29, 07), "nexus loss"},
	{DEDAKHUMI_PENDING_COMMANDS_CLEARED, SENSE(2F, 00), "commands cleared by another initiator"},
	{0, SENSE(49, 00), "attribute not taken"},
	{0, SENSE(4E, 00), "overlapped command"},
	{0, 0, 0, "unknown", "unknown"},
};
enum { LAST_SENSE = sizeof senses / sizeof senses[0] - 1 };

static const struct sense *sense_of_bit(uint8_t bit)
{
	const struct sense *sense = senses;
	while (sense < senses + LAST_SENSE && sense->pending != bit)
		sense++;
	return sense;
}

const char *attention_name(uint8_t bit)
{
	return sense_of_bit(bit)->name;
}

const char *attention_meaning(uint8_t bit)
{
	return sense_of_bit(bit)->meaning;
}

static const struct sense *sense_of(uint8_t code, uint8_t qualifier)
{
	const struct sense *sense = senses;
	while (sense < senses + LAST_SENSE && (sense->code != code || sense->qualifier != qualifier))
		sense++;
	return sense;
}

const char *sense_meaning(uint8_t code, uint8_t qualifier)
{
	return sense_of(code, qualifier)->meaning;
}

uint8_t attention_bit(uint8_t code, uint8_t qualifier)
{
	return sense_of(code, qualifier)->pending;
}
