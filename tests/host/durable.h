/* What the disk has for certain: of each file the bytes that it had when it was last synced, of each directory the
 * names. Kept in the directory that the environment's DURABLE names, by inode, for all below the directory PLACE;
 * lost.py makes of it what a power loss may leave. Without the two variables nothing is kept. */
#ifndef DURABLE_H
#define DURABLE_H

void durable_begin(void); /* what is there when the machine is switched on */
void durable_one(int file);
void durable_all(void);

#endif
