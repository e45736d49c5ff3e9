/* Two guards behind the same six functions, the archive's and the one in plain C, and the tables that they are
 * measured on. */
#ifndef EVENTS_H
#define EVENTS_H

#include "plain/guard.h"

enum { FRESH, CALL, READER_CALL, REPLY, SAVE, LOAD, ENTRIES };
enum { ARCHIVE, PLAIN, SIDES };

extern const char *const side_names[SIDES], *const entry_names[ENTRIES];
extern uint8_t answer[ANSWER], request[REQUEST], image[IMAGE], digest[DIGEST], page[PAGE];
extern size_t image_length;

/* Which side the functions below go to. */
extern int side;

outcome fresh(void);
outcome call(const void *bytes, size_t n);
outcome reader_call(const void *bytes, size_t n);
outcome reply(const void *bytes, size_t n);
outcome save(void);
outcome load(void);

/* The outcome must be this one. */
void expect(outcome o, int32_t kind, uint64_t number);

/* An honest host's replies to the requests of a page call, each page being `page`. */
outcome answered(outcome o);

/* A guard's whole memory kept, and put back. */
void keep(void);
void restore(void);

/* The bytes that a guard needs; the deepest stack below an entry since `watch_stack`. */
size_t guard_bytes(int which);
void watch_stack(uint8_t *bottom);
size_t deepest(int which, int entry);

/* ---- tables, each loaded by its image; every page in them is `page`, and the node in place k has id k + 1 */

void begin_image(uint32_t nodes);
void add_root(void);
void add_node(uint32_t id, uint32_t parent, int kind, uint32_t size, const char *name);
void load_image(void);

#endif
