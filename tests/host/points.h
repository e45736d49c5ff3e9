/* Moments at which the program may be killed: before and after each system call by which the host changes the disk,
 * and in the middle of a page. Beside them, system calls that fail for a moment or do only part of what they are
 * asked, and a disk that is full. */
#ifndef POINTS_H
#define POINTS_H

extern unsigned long points_left; /* the program is killed at this many points from now; 0: never */
extern unsigned faults_every;     /* each such system call fails for a moment; 0: none */

/* Of the system calls that may need room, number `from` from now and those behind it, `calls` in all, fail with
 * `error`, half done where there are halves. 0 calls: none. */
extern struct full_disk { unsigned long from, calls; int error; } full_disk;

#endif
