#include "watch.h"

#include <stdarg.h>
#include <stdio.h>
#include <stdlib.h>
#include <string.h>

static unsigned checks;

static void write_down(struct watch *watch, const char *format, ...) __attribute__((format(printf, 2, 3)));

static void write_down(struct watch *watch, const char *format, ...)
{
	va_list arguments;
	va_start(arguments, format);
	int length = vsnprintf(watch->asked + watch->used, sizeof watch->asked - watch->used, format, arguments);
	va_end(arguments);
	watch->used += (size_t)length;
	if (length < 0 || watch->used >= sizeof watch->asked) {
		fprintf(stderr, "port: the box asks for more between two checks than is written down\n");
		exit(EXIT_FAILURE);
	}
}

void *block_of(uint8_t nexus, dedakhumi_tag tag)
{
	static char blocks[DEDAKHUMI_NEXUSES][256];
	return &blocks[nexus % DEDAKHUMI_NEXUSES][tag % 256];
}

/* What was said to follow is expected once. */
static void expect(struct watch *watch, uint8_t status, void *request)
{
	watch->follows = status;
	watch->ended = request;
}

/* For everything but `send`. */
static void expect_no_status(struct watch *watch)
{
	if (watch->follows != DEDAKHUMI_STATUS_NONE)
		write_down(watch, "(%02Xh did not follow) ", watch->follows);
	expect(watch, DEDAKHUMI_STATUS_NONE, NULL);
}

/* A command that ended at entry was not let go, and has no request. */
static void send(void *context, uint8_t nexus, dedakhumi_tag tag, void *request, uint8_t status, struct sense sense)
{
	struct watch *watch = context;
	bool let_go_before = watch->follows != DEDAKHUMI_STATUS_NONE;
	write_down(watch, "send %u.%u %02Xh", nexus, tag, status);
	if (sense.key != 0 || sense.code != 0 || sense.qualifier != 0)
		write_down(watch, " %Xh/%02Xh/%02Xh", sense.key, sense.code, sense.qualifier);
	if (request != watch->ended)
		write_down(watch, " with another's request");
	if (let_go_before && (status != watch->follows || request != block_of(nexus, tag)))
		write_down(watch, " and not what was to follow");
	write_down(watch, "; ");
	expect(watch, DEDAKHUMI_STATUS_NONE, NULL);
}

static void run(void *context, uint8_t nexus, dedakhumi_tag tag, void *request)
{
	bool own = request == block_of(nexus, tag);
	expect_no_status(context);
	write_down(context, "run %u.%u%s; ", nexus, tag, own ? "" : " with another's request");
}

static void let_go(void *context, uint8_t nexus, dedakhumi_tag tag, void *request, bool at_disk, uint8_t status)
{
	struct watch *watch = context;
	bool own = request == block_of(nexus, tag);
	expect_no_status(watch);
	watch->gone++;
	write_down(watch, "let go %u.%u%s%s; ", nexus, tag, at_disk ? " at the disk" : "", own ? "" : " with another's request");
	if (status != DEDAKHUMI_STATUS_NONE)
		expect(watch, status, request);
}

static void applied(void *context, const struct dedakhumi_event *event, const struct dedakhumi_answer *answer)
{
	struct watch *watch = context;
	expect_no_status(watch);
	watch->applied++;
	watch->answered = answer->answer;
	watch->told = dedakhumi_fields_of(event->bytes).first;
}

static void note(void *context, enum box_note note)
{
	static const char *const words[] = {[BOX_GIVES_AGAIN] = "gives again", [BOX_NAMING_REFUSED] = "naming refused",
		[BOX_STARTED_OVER] = "started over", [BOX_STRAY_END] = "stray end", [BOX_FAULT] = "fault"};
	expect_no_status(context);
	write_down(context, "%s; ", words[note]);
}

uint8_t watch_start(struct watch *watch, uint8_t policy)
{
	static const struct box_calls calls = {.send = send, .run = run, .let_go = let_go, .applied = applied, .note = note};
	expect(watch, DEDAKHUMI_STATUS_NONE, NULL);
	return box_start(&watch->box, policy, &calls, watch);
}

static void forget(struct watch *watch)
{
	watch->asked[0] = '\0';
	watch->used = 0;
	watch->applied = 0;
}

void check_number(struct watch *watch, const char *what, unsigned got, unsigned expected)
{
	checks++;
	if (got == expected)
		return;
	fprintf(stderr, "port: %s: %u instead of %u; the box asked for: %s\n", what, got, expected, watch->asked);
	exit(EXIT_FAILURE);
}

void check_asked(struct watch *watch, const char *what, const char *asked)
{
	checks++;
	expect_no_status(watch);
	if (strcmp(watch->asked, asked) != 0) {
		fprintf(stderr, "port: %s: the box asked for: %s\ninstead of: %s\n", what, watch->asked, asked);
		exit(EXIT_FAILURE);
	}
	forget(watch);
}

void check_answer(struct watch *watch, const char *what, struct dedakhumi_answer answer, uint8_t number, const char *asked)
{
	check_number(watch, what, answer.answer, number);
	check_number(watch, what, watch->applied, 1);
	check_number(watch, what, watch->answered, number);
	check_asked(watch, what, asked);
}

void check_end(struct watch *watch, const char *what, struct dedakhumi_answer answer, uint8_t number, uint8_t told, const char *asked)
{
	check_number(watch, what, watch->told, told);
	check_answer(watch, what, answer, number, asked);
}

void check_stray(struct watch *watch, const char *what, struct dedakhumi_answer answer)
{
	check_number(watch, what, answer.answer, DEDAKHUMI_NO_SUCH_TASK);
	check_number(watch, what, watch->applied, 0);
	check_asked(watch, what, "stray end; ");
}

unsigned checks_made(void)
{
	return checks;
}
