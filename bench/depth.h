/* How far down the stack a call writes. */
#ifndef BENCH_DEPTH_H
#define BENCH_DEPTH_H

#include <stddef.h>

/* Makes the call on a stack of its own, and gives the octets below the caller's frame that it used. */
size_t depth_of(void (*call)(const void *with), const void *with);

#endif
