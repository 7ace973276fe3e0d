/* Without any library: compiled by -ffreestanding -nostdlib, with a memset of its own, which is all that the archive asks for. Exits with the
   number of tasks that the report lists after two ended at once, or with 100 and more. */
#include <dedakhumi.h>

void *memset(void *bytes, int value, size_t count);

void *memset(void *bytes, int value, size_t count)
{
	/* volatile: else the compiler makes a call of memset from this loop */
	for (volatile uint8_t *byte = bytes; count > 0; count--)
		*byte++ = (uint8_t)value;
	return bytes;
}

static uint8_t table[DEDAKHUMI_TABLE_LENGTH], report[DEDAKHUMI_REPORT_LENGTH];

static struct dedakhumi_answer apply(struct dedakhumi_event event)
{
	return dedakhumi_apply(table, sizeof table, report, sizeof report, event.bytes, sizeof event.bytes);
}

static int play(void)
{
	if (dedakhumi_start(table, sizeof table, DEDAKHUMI_POLICY_QERR_NONE) != DEDAKHUMI_DONE)
		return 100;
	for (dedakhumi_tag tag = 1; tag <= 2; tag++)
		if (apply(dedakhumi_command_event(5, tag, DEDAKHUMI_ATTRIBUTE_ORDERED, DEDAKHUMI_CONTROL_EXEMPT)).answer != DEDAKHUMI_DONE)
			return 101;
	struct dedakhumi_turn turn = dedakhumi_name(table, sizeof table);
	if (!turn.found || turn.nexus != 5 || turn.tag != 1)
		return 102;
	return apply(dedakhumi_function_event(5, DEDAKHUMI_FUNCTION_ABORT_TASK_SET)).ended;
}

/* The kernel enters with a stack on a multiple of 16, as a function finds it one push later. */
__attribute__((noreturn, force_align_arg_pointer)) void _start(void);

void _start(void)
{
	__asm__ volatile("syscall" : : "a"(60L), "D"((long)play()) : "rcx", "r11", "memory");
	__builtin_unreachable();
}
