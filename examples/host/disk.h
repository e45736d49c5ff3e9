/* What anyone with a hand on the disk can do, past the guard and the host: ordinary files read and written. Each ends the program where it cannot. */
#ifndef DISK_H
#define DISK_H

#include <stddef.h>
#include <stdint.h>

size_t disk_read(const char *file, long at, void *bytes, size_t length); /* how many there are */
void disk_write(const char *file, long at, const void *bytes, size_t length);
void disk_move(const char *from, const char *to);
void disk_swap(const char *one, const char *other);

/* Prints a command and what it prints. */
void disk_show(const char *command);

/* Removes a directory and all in it. */
void disk_clear(const char *directory);

#endif
