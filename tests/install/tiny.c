/* A fresh table, task 2.7 told of the power on, sent again, named and ended, over the installed library; compiled as C11 and as C++. Prints what
   the player prints for the same three events, with the naming between. */
#include <dedakhumi.h>
#include <stdio.h>

static uint8_t table[DEDAKHUMI_TABLE_LENGTH], report[DEDAKHUMI_REPORT_LENGTH];

static void play(struct dedakhumi_event event)
{
	struct dedakhumi_answer a = dedakhumi_apply(table, sizeof table, report, sizeof report, event.bytes, sizeof event.bytes);
	printf("%u %02X %02X %02X %02X %u\n", a.answer, a.status, a.key, a.code, a.qualifier, a.ended);
}

int main(void)
{
	if (dedakhumi_start(table, sizeof table, DEDAKHUMI_POLICY_QERR_NONE) != DEDAKHUMI_DONE)
		return 1;
	play(dedakhumi_command_event(2, 7, DEDAKHUMI_ATTRIBUTE_SIMPLE, 0));
	play(dedakhumi_command_event(2, 7, DEDAKHUMI_ATTRIBUTE_SIMPLE, 0));
	struct dedakhumi_turn turn = dedakhumi_name(table, sizeof table);
	printf("%u %u %u %u\n", turn.answer, turn.found, turn.nexus, turn.tag);
	play(dedakhumi_completion_event(2, 7, DEDAKHUMI_STATUS_GOOD));
	struct dedakhumi_ended ended = dedakhumi_ended_at(report, 0);
	printf("%u.%u %02X\n", ended.nexus, ended.tag, ended.status);
	return 0;
}
