/* Calls of the C library that come to this program first: they may be interrupted, and are counted. */
#ifndef STUB_CALLS_H
#define STUB_CALLS_H

#include <sys/types.h>

/* Whether each call that a signal may cut short is cut short every other time. */
extern int is_interrupted;

/* How often each was called. */
extern int polls, reads, writes;

/* What is done once where a process is forked, before it is. */
extern void (*beside_fork)(void);

/* The fork of the C library. */
pid_t real_fork(void);

#endif
