/* What hosts, the disk and the driver around a watched box do, in a word each; some with the check that it goes as it should. */
#ifndef ACTS_H
#define ACTS_H

#include "watch.h"

enum { SIMPLE = DEDAKHUMI_ATTRIBUTE_SIMPLE, HEAD_OF_QUEUE = DEDAKHUMI_ATTRIBUTE_HEAD_OF_QUEUE, ORDERED = DEDAKHUMI_ATTRIBUTE_ORDERED };
enum { NACA = DEDAKHUMI_CONTROL_NACA, EXEMPT = DEDAKHUMI_CONTROL_EXEMPT };
/* none of the four */
enum { NO_ATTRIBUTE = 3 };

extern const struct sense write_error, hardware_error;

struct dedakhumi_answer command(struct watch *watch, uint8_t nexus, dedakhumi_tag tag, uint8_t attribute, uint8_t control);
struct dedakhumi_answer good(struct watch *watch, uint8_t nexus, dedakhumi_tag tag);
struct dedakhumi_answer bad(struct watch *watch, uint8_t nexus, dedakhumi_tag tag, struct sense sense);
/* With a sense, which is nobody's where the status is not CHECK CONDITION. */
struct dedakhumi_answer ends(struct watch *watch, uint8_t nexus, dedakhumi_tag tag, uint8_t status);
struct dedakhumi_answer function(struct watch *watch, uint8_t nexus, uint8_t function);

void accepts(struct watch *watch, uint8_t nexus, dedakhumi_tag tag, uint8_t attribute, uint8_t control);
/* By box_run_enabled and by box_run_named. */
void runs(struct watch *watch, const char *what, unsigned count, const char *asked);
void names(struct watch *watch, const char *what, bool found, const char *asked);

/* A box of its own. With tag 1 each host is told of the power on, and has nothing to hear any more. */
struct watch *begin(uint8_t policy);
/* Nexus 1 has an ACA; 2.2, which the disk has, is blocked, and 7.2 dormant. */
struct watch *begin_aca(void);

#endif
