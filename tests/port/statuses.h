/* The scenes in which the disk ends tasks with every kind of status: what the table is told, and what the host hears. */
#ifndef STATUSES_H
#define STATUSES_H

void statuses_of_the_disk(void);

#endif
