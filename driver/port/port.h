/* The two buffers that are lent, and the three calls. */
#ifndef PORT_H
#define PORT_H

#include "dedakhumi.h"

/* Two separate arrays, so that table and report cannot overlap. Everybody else only reads them. */
struct port {
	uint8_t table[DEDAKHUMI_TABLE_LENGTH];
	uint8_t report[DEDAKHUMI_REPORT_LENGTH];
};

/* These three answer as the operations of dedakhumi.h do. */
uint8_t port_start(struct port *port, uint8_t policy);
struct dedakhumi_answer port_apply(struct port *port, const struct dedakhumi_event *event);
struct dedakhumi_turn port_turn(const struct port *port);

#endif
