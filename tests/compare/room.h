/* Rooms for lent buffers: the page after a room can't be touched, and whoever touches it is caught. */
#ifndef COMPARE_ROOM_H
#define COMPARE_ROOM_H

#include "trial.h"

#include <setjmp.h>

/* Where a touch outside comes back to; the caller sets it before it calls a side. */
extern sigjmp_buf room_return;

void room_watch(void);
uint8_t *room_make(void);

static inline uint8_t *room_lend(uint8_t *room, size_t length, size_t shift)
{
	return room + ROOM_LENGTH - shift - length;
}

#endif
