/* What the host knows of its nodes and the disk does not say: an id and a mode for each path. Kept in a file, so that
 * it outlives the program. */
#ifndef TABLE_H
#define TABLE_H

#include <stddef.h>
#include <stdint.h>

#include "guard.h"

enum { TABLE_ROWS = 2 * GUARD_NODES }; /* a disk that others write to may hold more nodes than the guard does */

typedef struct { uint32_t id; uint8_t mode; char path[GUARD_PATH_LENGTH + 1]; } table_row;

typedef struct { const char *file; uint32_t next; size_t count; table_row rows[TABLE_ROWS]; } table;

/* A table with the root alone, whose file is not written yet. */
void table_begin(table *t, const char *file);

/* Reads the file. 0, or -1 and errno: ENOENT where there is none, EBADMSG where it is empty, cut short or no table. */
int table_read(table *t, const char *file);

/* Writes the file anew and puts it in the place of the old one: whenever power is lost, one of the two is there,
 * whole. 0, or -1 and errno. */
int table_write(const table *t);

table_row *table_find(table *t, const char *path);

/* A row with an id that no node had before, or null and errno where there is no room. An id that comes back might be
 * one that an older image still has, and GUARD_FULL_ID would say that nothing was made. */
table_row *table_add(table *t, const char *path, uint8_t mode);

/* Takes a row out, if it is there. */
void table_remove(table *t, const char *path);

/* A second row, with the same id and mode, for the node of a path and for each beneath it: at the new path. Both stand
 * there while a rename is on its way; a start drops the ones whose nodes are not there. 0, or -1 and errno where there
 * is no room. */
int table_copy(table *t, const char *path, const char *new_path);

/* Takes the row of a path out, and all beneath it. */
void table_remove_all(table *t, const char *path);

#endif
