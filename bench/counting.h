/* Macros by which callgrind counts only a part of a program. Without valgrind's header they count
 * nothing. */
#ifndef FISHREEF_COUNTING_H
#define FISHREEF_COUNTING_H

#if __has_include(<valgrind/callgrind.h>)
#include <valgrind/callgrind.h>
#else
#define CALLGRIND_ZERO_STATS ((void)0)
#define CALLGRIND_DUMP_STATS_AT(text) ((void)(text))
#endif

#endif
