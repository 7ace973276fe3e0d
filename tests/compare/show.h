/* Writes a trial and where the sides part on it. */
#ifndef COMPARE_SHOW_H
#define COMPARE_SHOW_H

#include "run.h"

void show_trial(const struct trial *trial);
void show_difference(const struct run *run, const struct trial *trial);

#endif
