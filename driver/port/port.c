#include "port.h"

uint8_t port_start(struct port *port, uint8_t policy)
{
	return dedakhumi_start(port->table, sizeof port->table, policy);
}

struct dedakhumi_answer port_apply(struct port *port, const struct dedakhumi_event *event)
{
	return dedakhumi_apply(port->table, sizeof port->table, port->report, sizeof port->report, event->bytes, sizeof event->bytes);
}

struct dedakhumi_turn port_turn(const struct port *port)
{
	return dedakhumi_name(port->table, sizeof port->table);
}
