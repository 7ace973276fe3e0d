#define _DEFAULT_SOURCE
#include "fence.h"

#include <stdio.h>
#include <stdlib.h>
#include <string.h>
#include <sys/mman.h>
#include <unistd.h>

static uint8_t *canary;

size_t fence_page_length(void)
{
	return (size_t)sysconf(_SC_PAGESIZE);
}

const char *fence_place_name(enum place place)
{
	static const char *const names[] = {"at a page's start", "at a page's end", "inside a page"};
	return names[place];
}

static void give_up(const char *call)
{
	perror(call);
	exit(2);
}

/* No two neighbours alike and no zeros in a row, so that a byte moved or cleared shows. */
static void make_canary(size_t length)
{
	canary = malloc(length);
	if (canary == NULL)
		give_up("malloc");
	for (size_t i = 0; i < length; i++)
		canary[i] = (uint8_t)(i * 37 + (i >> 8) + 11);
}

static void protect(struct fence *fence, int protection)
{
	if (fence->protection == protection)
		return;
	if (mprotect(fence->page, fence_page_length(), protection) != 0)
		give_up("mprotect");
	fence->protection = protection;
}

void fence_make(struct fence *fence, const char *name)
{
	size_t length = fence_page_length();
	uint8_t *pages = mmap(NULL, 3 * length, PROT_NONE, MAP_PRIVATE | MAP_ANONYMOUS, -1, 0);
	if (pages == MAP_FAILED)
		give_up("mmap");
	if (canary == NULL)
		make_canary(length);
	*fence = (struct fence){.name = name, .page = pages + length, .begin = pages + length, .protection = PROT_NONE};
	protect(fence, PROT_READ | PROT_WRITE);
	memcpy(fence->page, canary, length);
}

static size_t offset_of(enum place place, size_t length)
{
	size_t room = fence_page_length() - length;
	if (place == AT_END)
		return room;
	return place == INSIDE && room >= 2 ? (room / 2) | 1 : 0;
}

void fence_put(struct fence *fence, enum place place, struct lent lent, bool writable)
{
	protect(fence, PROT_READ | PROT_WRITE);
	memcpy(fence->page, canary, fence_page_length());
	fence->length = lent.length;
	fence->begin = lent.null ? NULL : fence->page + offset_of(place, lent.length);
	if (lent.length == 0) {
		protect(fence, PROT_NONE);
		return;
	}
	memcpy(fence->begin, lent.bytes, lent.length);
	protect(fence, writable ? PROT_READ | PROT_WRITE : PROT_READ);
}

bool fence_around_as_before(const struct fence *fence)
{
	if (fence->length == 0)
		return true;
	size_t before = (size_t)(fence->begin - fence->page), after = before + fence->length;
	return memcmp(fence->page, canary, before) == 0 &&
	       memcmp(fence->page + after, canary + after, fence_page_length() - after) == 0;
}

bool fence_same(const struct fence *fence, struct lent lent)
{
	return lent.length == 0 || memcmp(fence->begin, lent.bytes, lent.length) == 0;
}

const char *fence_side(const struct fence *fence, const uint8_t *address)
{
	size_t length = fence_page_length();
	if (address < fence->page - length || address >= fence->page + 2 * length)
		return NULL;
	if (address < fence->page)
		return "before the";
	if (address >= fence->page + length)
		return "after the";
	return fence->protection == PROT_NONE ? "into the empty" : "by a write into the";
}
