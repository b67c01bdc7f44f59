/* Which programs arpki-guard starts: those into which the loader puts its library. */
#ifndef START_H
#define START_H

/* Whether a program can be guarded: it is a dynamic program of this machine for the loader of this system, without rights of its own, or
 * a script for one. NULL: it can; else why not. No memory is taken, so that it can be called in a child of vfork. */
const char *why_not_started(const char *path);

/* Looks for a program as execvp does, and writes its path. 1: there is one. */
int find_program(const char *name, char *path, unsigned long room);

#endif
