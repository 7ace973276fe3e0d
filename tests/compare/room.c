#define _DEFAULT_SOURCE
#include "room.h"

#include <signal.h>
#include <stdio.h>
#include <stdlib.h>
#include <sys/mman.h>

enum { PAGE_LENGTH = 4096 };

sigjmp_buf room_return;

static void come_back(int number)
{
	siglongjmp(room_return, number);
}

/* The mask is left alone, so that the setting before every event costs no system call. */
void room_watch(void)
{
	struct sigaction action = { .sa_handler = come_back, .sa_flags = SA_NODEFER };

	if (sigaction(SIGSEGV, &action, NULL) != 0 || sigaction(SIGBUS, &action, NULL) != 0) {
		perror("compare");
		exit(2);
	}
}

uint8_t *room_make(void)
{
	uint8_t *pages = mmap(NULL, 2 * PAGE_LENGTH, PROT_READ | PROT_WRITE, MAP_PRIVATE | MAP_ANONYMOUS, -1, 0);

	if (pages == MAP_FAILED || mprotect(pages + PAGE_LENGTH, PAGE_LENGTH, PROT_NONE) != 0) {
		perror("compare");
		exit(2);
	}
	return pages + PAGE_LENGTH - ROOM_LENGTH;
}
