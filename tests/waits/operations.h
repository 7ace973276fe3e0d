/* The three operations that are played: the archive's, or with SECOND those of the second implementation. */
#ifndef WAITS_OPERATIONS_H
#define WAITS_OPERATIONS_H

#include "dedakhumi.h"

#ifdef SECOND
#include "second.h"
#define PLAYED "second/"
#define START second_start
#define APPLY second_apply
#define NAME second_name
#else
#define PLAYED "the archive"
#define START dedakhumi_start
#define APPLY dedakhumi_apply
#define NAME dedakhumi_name
#endif

#endif
