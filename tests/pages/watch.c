#define _DEFAULT_SOURCE
#include "watch.h"

#include <signal.h>
#include <stdio.h>
#include <stdlib.h>
#include <string.h>
#include <unistd.h>

static const struct fence *fences[3];
static const char *now = "no call yet";

void watch_case(const char *text)
{
	now = text;
}

void watch_fail(const char *why)
{
	fprintf(stderr, "pages: %s: %s\n", now, why);
	exit(1);
}

static void say(const char *text)
{
	if (write(STDERR_FILENO, text, strlen(text)) < 0)
		_exit(1);
}

static void say_where(const uint8_t *address)
{
	for (int i = 0; i < 3; i++) {
		const char *side = fence_side(fences[i], address);
		if (side != NULL) {
			say("access ");
			say(side);
			say(" ");
			say(fences[i]->name);
			return;
		}
	}
	say((uintptr_t)address < fence_page_length() ? "access by a null pointer" : "access to an address of no buffer");
}

/* Only write and _exit are called: a handler may call little else. */
static void on_fault(int number, siginfo_t *info, void *context)
{
	(void)number;
	(void)context;
	say("pages: ");
	say(now);
	say(": ");
	say_where(info->si_addr);
	say("\n");
	_exit(1);
}

void watch_faults(const struct fence *table, const struct fence *report, const struct fence *event)
{
	struct sigaction action = {.sa_sigaction = on_fault, .sa_flags = SA_SIGINFO};
	fences[0] = table;
	fences[1] = report;
	fences[2] = event;
	sigemptyset(&action.sa_mask);
	if (sigaction(SIGSEGV, &action, NULL) != 0 || sigaction(SIGBUS, &action, NULL) != 0) {
		perror("sigaction");
		exit(2);
	}
}
