#include "forms.h"

#define FUNCTION(name) DEDAKHUMI_KIND_MANAGEMENT, DEDAKHUMI_FUNCTION_##name
#define CONDITION(name) DEDAKHUMI_KIND_CONDITION, DEDAKHUMI_CONDITION_##name

/* Of two that open alike the one with more words comes first. */
static const struct form forms[] = {
	{"0.1 S", "command 0.1 SIMPLE", read_task_event, DEDAKHUMI_KIND_COMMAND, 0, "nexus 0 sends a command with tag 1"},
	{"0.1 ends", "completion 0.1 GOOD", read_task_event, DEDAKHUMI_KIND_COMPLETION, 0, "the disk has ended the task with GOOD"},
	{"0.1 fails", "completion 0.1 CHECK CONDITION", read_task_event, DEDAKHUMI_KIND_COMPLETION, 0, "the same with CHECK CONDITION"},
	{"0.1 busy", "completion 0.1 BUSY", read_task_event, DEDAKHUMI_KIND_COMPLETION, 0, "the same with BUSY"},
	{"0.1 conflict", "completion 0.1 RESERVATION CONFLICT", read_task_event, DEDAKHUMI_KIND_COMPLETION, 0,
		"the same with RESERVATION CONFLICT"},
	{"abort set 0", "abort task set 0", read_nexus, FUNCTION(ABORT_TASK_SET), "ABORT TASK SET from nexus 0"},
	{"abort 0.1", "abort task 0.1", read_task, FUNCTION(ABORT_TASK), "ABORT TASK from nexus 0, tag 1"},
	{"clear set 0", "clear task set 0", read_nexus, FUNCTION(CLEAR_TASK_SET), "CLEAR TASK SET from nexus 0"},
	{"clear aca 0", "clear ACA 0", read_nexus, FUNCTION(CLEAR_ACA), "CLEAR ACA from nexus 0"},
	{"reset 0", "logical unit reset 0", read_nexus, FUNCTION(LOGICAL_UNIT_RESET), "LOGICAL UNIT RESET from nexus 0"},
	{"hard", "hard reset", read_no_more, CONDITION(HARD_RESET), "a hard reset"},
	{"lost 0", "nexus loss 0", read_nexus, CONDITION(NEXUS_LOSS), "nexus 0 is lost"},
	{"power", "power on", read_no_more, CONDITION(POWER_ON), "a power on, which keeps the policy"},
	{"start 00", "start 00", read_policy, 0, 0, "a fresh table with that policy byte, in hex"},
	{"54 56 01 00 00 00 00 01", "5456010000000001", read_record, 0, 0, "an event record in hex, right or wrong"},
};
enum { FORMS = sizeof forms / sizeof forms[0] };

const struct form *take_form(struct reading *reading)
{
	for (const struct form *form = forms; form < forms + FORMS; form++)
		if (take_phrase(&reading->rest, form->full) || take_phrase(&reading->rest, form->brief))
			return form;
	return NULL;
}

static bool begins_with(const char *example, struct word word)
{
	return same_word(next_word(&example), word);
}

/* The way of writing it that begins with the word; NULL if neither does. */
static const char *example_with(const struct form *form, struct word word)
{
	return begins_with(form->brief, word) ? form->brief : begins_with(form->full, word) ? form->full : NULL;
}

static unsigned add_forms_with(struct text *text, struct word word)
{
	unsigned added = 0;
	for (const struct form *form = forms; form < forms + FORMS; form++) {
		const char *example = example_with(form, word);
		if (example != NULL)
			text_add(text, "%s%s", added++ == 0 ? "" : ", ", example);
	}
	return added;
}

static void add_own(struct text *text, const struct name *own)
{
	for (const struct name *each = own; each->name != NULL; each++)
		if (name_in(own, each->number) == each->name)
			text_add(text, ", %s", each->name);
}

void add_right_forms(struct text *text, struct word word, const struct name *own)
{
	if (add_forms_with(text, word) != 0)
		return;
	for (const struct form *form = forms; form < forms + FORMS; form++)
		text_add(text, "%s%s", form == forms ? "" : ", ", form->brief);
	add_own(text, own);
}

void add_forms(struct text *text)
{
	for (const struct form *form = forms; form < forms + FORMS; form++)
		text_add(text, "  %-24s %-36s %s\n", form->brief, form->full, form->meaning);
	text_add(text,
		"  Attributes: S SIMPLE, H HEAD OF QUEUE, O ORDERED, A ACA. Behind one may stand naca (its CHECK CONDITION sets up an\n"
		"  ACA) and exempt (INQUIRY, REPORT LUNS, REQUEST SENSE). A nexus is 0 to %d, a tag 0 to %llu; a nexus up to %d may be tried.\n"
		"  Policies: 00 QERR 00b (a CHECK CONDITION aborts no other task), 01 QERR 01b (every other task), 03 QERR 11b (the other\n"
		"  tasks of that nexus); 04, 05 and 07 are these with TAS (a task that another nexus aborts, by QERR or CLEAR TASK SET, ends\n"
		"  with TASK ABORTED, while without TAS nothing is sent for it, and its nexus will be told by a unit attention).\n"
		"  Upper and lower case are the same. # begins a comment.\n",
		DEDAKHUMI_NEXUSES - 1, (unsigned long long)(dedakhumi_tag)-1, (uint8_t)-1);
}
