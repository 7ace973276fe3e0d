/* Runs cases over the archive and writes all that is seen. tests/cases/run makes the input from the cases and holds the text to them.
   The input is frames: a head of 8 bytes (kind; number; payload length, two bytes, big-endian; four zeros) and a payload. */
#include <dedakhumi.h>

#include <stdbool.h>
#include <stdio.h>
#include <stdlib.h>
#include <string.h>

#include "../usage.h"
#include "dump.h"

enum { HEAD = 8, LONGEST = 1024 };

/* Exactly as many bytes as a frame gave, so that a sanitizer sees a step beyond them. */
struct buffer {
	uint8_t *bytes;
	size_t length;
};

struct stage {
	struct buffer table, report;
};

struct frame {
	char kind;
	uint8_t number;
	struct buffer payload;
};

static _Noreturn void stop_at_bad_frame(void)
{
	printf("bad frame\n");
	exit(0);
}

static struct buffer new_buffer(const uint8_t *bytes, size_t length)
{
	struct buffer made = {malloc(length > 0 ? length : 1), length};
	if (made.bytes == NULL)
		abort();
	memcpy(made.bytes, bytes, length);
	return made;
}

static void replace(struct buffer *old, struct buffer fresh)
{
	free(old->bytes);
	*old = fresh;
}

/* A start has a number, and a start and a naming have no payload. */
static bool head_fits(const struct frame *frame, const uint8_t *head)
{
	static const uint8_t zeros[4];
	bool bare = frame->kind == 'S' || frame->kind == 'N', with_payload = memchr("CTRA", frame->kind, 4) != NULL;
	return memcmp(head + 4, zeros, sizeof zeros) == 0 && (frame->kind == 'S' || frame->number == 0)
		&& (with_payload || (bare && frame->payload.length == 0)) && frame->payload.length <= LONGEST;
}

/* False where the input ends before a head. */
static bool read_frame(struct frame *frame)
{
	uint8_t head[HEAD], payload[LONGEST];
	size_t count = fread(head, 1, sizeof head, stdin);
	if (count == 0)
		return false;
	if (count < sizeof head)
		stop_at_bad_frame();
	*frame = (struct frame){(char)head[0], head[1], {NULL, head[2] * 256u + head[3]}};
	if (!head_fits(frame, head) || fread(payload, 1, frame->payload.length, stdin) < frame->payload.length)
		stop_at_bad_frame();
	frame->payload = new_buffer(payload, frame->payload.length);
	return true;
}

static void start(const struct stage *stage, uint8_t policy)
{
	uint8_t answer = dedakhumi_start(stage->table.bytes, stage->table.length, policy);
	printf("start %02X: answer %u\n", policy, answer);
	print_table(stage->table.bytes, stage->table.length);
}

static void name(const struct stage *stage)
{
	struct dedakhumi_turn turn = dedakhumi_name(stage->table.bytes, stage->table.length);
	printf("name: answer %u, found %u, nexus %u, tag %u\n", turn.answer, turn.found, turn.nexus, turn.tag);
}

/* The event is lent a copy of the report buffer, so that the next one finds it as it was when the case began. */
static void apply(const struct stage *stage, const struct buffer *event)
{
	struct buffer table = stage->table, report = new_buffer(stage->report.bytes, stage->report.length);
	struct dedakhumi_answer a = dedakhumi_apply(table.bytes, table.length, report.bytes, report.length, event->bytes, event->length);
	printf("event");
	print_hexes(event->bytes, event->length);
	printf(": %u %02X %02X %02X %02X %u\n", a.answer, a.status, a.key, a.code, a.qualifier, a.ended);
	print_table(table.bytes, table.length);
	print_report(report.bytes, report.length);
	free(report.bytes);
}

/* Nothing is lent when a case begins. */
static void begin_case(struct stage *stage, const struct buffer *title)
{
	printf("case %.*s\n", (int)title->length, (const char *)title->bytes);
	replace(&stage->table, new_buffer(title->bytes, 0));
	replace(&stage->report, new_buffer(title->bytes, 0));
}

static void play_frame(struct stage *stage, const struct frame *frame)
{
	const struct buffer *payload = &frame->payload;
	switch (frame->kind) {
	case 'C': begin_case(stage, payload); break;
	case 'T': replace(&stage->table, new_buffer(payload->bytes, payload->length)); break;
	case 'R': replace(&stage->report, new_buffer(payload->bytes, payload->length)); break;
	case 'S': start(stage, frame->number); break;
	case 'N': name(stage); break;
	case 'A': apply(stage, payload); break;
	}
}

int main(int argument_count, char **arguments)
{
	(void)arguments;
	take_no_argument("replay", argument_count);
	struct stage stage = {new_buffer((const uint8_t *)"", 0), new_buffer((const uint8_t *)"", 0)};
	struct frame frame;
	while (read_frame(&frame)) {
		play_frame(&stage, &frame);
		free(frame.payload.bytes);
	}
	free(stage.table.bytes);
	free(stage.report.bytes);
	return 0;
}
