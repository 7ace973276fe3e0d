/* A lent buffer between two pages that nobody may touch. */
#ifndef PAGES_FENCE_H
#define PAGES_FENCE_H

#include <stdbool.h>
#include <stddef.h>
#include <stdint.h>

/* INSIDE is an odd address with room on both sides: the other two are never odd for the lengths that are taken. */
enum place { AT_START, AT_END, INSIDE };

/* What is lent: null is a null pointer, and its length is 0. */
struct lent {
	const uint8_t *bytes;
	size_t length;
	bool null;
};

struct fence {
	const char *name;
	uint8_t *page;
	uint8_t *begin;
	size_t length;
	int protection;
};

size_t fence_page_length(void);
const char *fence_place_name(enum place place);
void fence_make(struct fence *fence, const char *name);
/* A buffer of length 0 lies on a page that may not even be read. */
void fence_put(struct fence *fence, enum place place, struct lent lent, bool writable);
bool fence_around_as_before(const struct fence *fence);
bool fence_same(const struct fence *fence, struct lent lent);
/* Which side of the buffer an address lies on, or NULL if it is not of these three pages. */
const char *fence_side(const struct fence *fence, const uint8_t *address);

#endif
