#include <stdio.h>

#include "happening.h"
#include "names.h"

/* How many nexuses from this one on have the same bits. */
static unsigned run_from(const uint8_t *bits, unsigned nexus)
{
	unsigned end = nexus + 1;
	while (end < DEDAKHUMI_NEXUSES && bits[end] == bits[nexus])
		end++;
	return end - nexus;
}

/* "nexus 0, 2 to 7": of three and more in a row the two ends. */
static void show_nexuses(const uint8_t *bits, uint8_t wanted)
{
	const char *between = "  nexus ";
	unsigned run;
	for (unsigned nexus = 0; nexus < DEDAKHUMI_NEXUSES; nexus += run) {
		run = run_from(bits, nexus);
		if (bits[nexus] != wanted)
			continue;
		printf("%s%u", between, nexus);
		if (run > 1)
			printf("%s%u", run > 2 ? " to " : ", ", nexus + run - 1);
		between = ", ";
	}
}

/* Highest rank first, which is the order in which they are told. */
static void show_bits(uint8_t bits, const char *between)
{
	const char *before = "";
	for (unsigned bit = DEDAKHUMI_PENDING_POWER_ON; bit <= DEDAKHUMI_PENDING_COMMANDS_CLEARED; bit <<= 1)
		if (bits & bit) {
			printf("%s%Xh/%s %s", before, DEDAKHUMI_SENSE_KEY_UNIT_ATTENTION, attention_name((uint8_t)bit),
				attention_meaning((uint8_t)bit));
			before = between;
		}
}

static unsigned first_like(const uint8_t *bits, unsigned nexus)
{
	unsigned first = 0;
	while (bits[first] != bits[nexus])
		first++;
	return first;
}

void show_by_nexus(const uint8_t bits[DEDAKHUMI_NEXUSES], const char *told, const char *between)
{
	for (unsigned nexus = 0; nexus < DEDAKHUMI_NEXUSES; nexus++) {
		if (bits[nexus] == 0 || first_like(bits, nexus) != nexus)
			continue;
		show_nexuses(bits, bits[nexus]);
		printf(" %s: ", told);
		show_bits(bits[nexus], between);
		putchar('\n');
	}
}
