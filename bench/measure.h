/* Time, memory and stack of this process. */
#ifndef JINXBANYAN_MEASURE_H
#define JINXBANYAN_MEASURE_H

#include <stddef.h>

/* The CPU time that this process has taken. */
double cpu_seconds(void);

/* Bars a page of memory, given by its first byte, until it is first touched. */
void watch(void *page);

/* The CPU time at which the page was touched, 0 if it was not. */
double touched_at(void);

/* The most memory that this process has had in use, in KiB. */
size_t peak_kib(void);

/* The bytes of stack that a call reaches down to, on a thread with so many bytes of painted stack. */
size_t stack_reached(void (*call)(void *), void *data, size_t bytes);

#endif
