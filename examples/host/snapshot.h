/* Copies of a directory with all that is in it: what a host goes back to after power loss. Each gives 0, or -1 and errno. */
#ifndef SNAPSHOT_H
#define SNAPSHOT_H

/* A copy under a name that nothing has yet. */
int snapshot_copy(const char *from, const char *to);

/* Removes a directory and all in it, if it is there. */
int snapshot_clear(const char *directory);

#endif
