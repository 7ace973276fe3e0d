/* splitmix64: the same seed gives the same run on every machine. */
#ifndef COMPARE_RANDOM_H
#define COMPARE_RANDOM_H

#include <stdbool.h>
#include <stddef.h>
#include <stdint.h>

static inline uint64_t random_next(uint64_t *random)
{
	uint64_t mixed = *random += 0x9E3779B97F4A7C15u;

	mixed = (mixed ^ mixed >> 30) * 0xBF58476D1CE4E5B9u;
	mixed = (mixed ^ mixed >> 27) * 0x94D049BB133111EBu;
	return mixed ^ mixed >> 31;
}

/* The limit is at most 2 to the power of 32. */
static inline unsigned random_below(uint64_t *random, uint64_t limit)
{
	return (unsigned)((random_next(random) >> 32) * limit >> 32);
}

static inline bool random_percent(uint64_t *random, unsigned percent)
{
	return random_below(random, 100) < percent;
}

static inline void random_bytes(uint64_t *random, uint8_t *bytes, size_t length)
{
	for (size_t place = 0; place < length; place++)
		bytes[place] = (uint8_t)(random_next(random) >> 56);
}

#endif
