/* Makes a trial on which the sides differ as small as it gets. */
#ifndef COMPARE_SHRINK_H
#define COMPARE_SHRINK_H

#include "run.h"

void shrink(struct run *run, struct trial *trial);

#endif
