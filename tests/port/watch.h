/* A driver around a box of driver/port that does nothing but write down what the box asks for, and the checks of that. */
#ifndef WATCH_H
#define WATCH_H

#include "events.h"
#include "turns.h"

/* `asked` is what the box has asked for since the last check, as "let go 0.2; send 0.2 00h; ". `applied` counts the events of that time,
   `answered` is the last one's answer, and `told` its field first: of a completion, the status that the table was told. `gone` counts the
   tasks that the box has let go of. `follows` is the status that the last `let_go` said will be sent next, for `ended`. */
struct watch {
	struct box box;
	char asked[2048];
	size_t used;
	unsigned applied, gone;
	uint8_t answered, told, follows;
	void *ended;
};

uint8_t watch_start(struct watch *watch, uint8_t policy);
/* What the driver keeps for a task. That the box gives back the same is checked too. */
void *block_of(uint8_t nexus, dedakhumi_tag tag);

/* These end the program where something else came than the rules say: `what` they say, in words, is printed then. */
void check_number(struct watch *watch, const char *what, unsigned got, unsigned expected);
/* The box has asked for exactly this since the last check. */
void check_asked(struct watch *watch, const char *what, const char *asked);
/* One event was applied, answered with this number, and the box has asked for exactly this. */
void check_answer(struct watch *watch, const char *what, struct dedakhumi_answer answer, uint8_t number, const char *asked);
/* The same of a completion, where the table was told this status. */
void check_end(struct watch *watch, const char *what, struct dedakhumi_answer answer, uint8_t number, uint8_t told, const char *asked);
/* An end of a task that the disk does not have: answered 5, and no event was applied. */
void check_stray(struct watch *watch, const char *what, struct dedakhumi_answer answer);
unsigned checks_made(void);

#endif
