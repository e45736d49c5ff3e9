/* Places for what is lent to the guard: memory between two pages that nobody may touch, full of a pattern that is
 * known.
 *
 * A thing lies at the low end of its place, or at the high end: a read or write before its first byte faults in the
 * one, behind its last byte in the other. Where nothing faults, the pattern tells whether a byte was written. */
#ifndef PLACES_H
#define PLACES_H

#include <stddef.h>
#include <stdint.h>

struct place {
    const char *name;
    uint8_t *start; /* room bytes, a multiple of the page */
    size_t room;
    uint8_t *at; /* what is lent: null where its length is 0, at the low end */
    size_t length;
};

/* From now on things lie at this end; the two ends have two patterns that differ in every byte. */
void places_begin(int high);

/* The other end, or the same, and at the low end so many bytes behind it: nothing that is lent needs an alignment. The
 * pattern stays. */
void places_turn(int high, size_t shift);

/* A place with room for so many bytes, full of the pattern. */
struct place place_for(const char *name, size_t bytes);

/* Lends so many bytes of it. */
void place_lend(struct place *p, size_t length);

/* Puts bytes into it, to be read only, or to be written as well. */
void place_input(struct place *p, const uint8_t *bytes, size_t length);
void place_hold(struct place *p, const uint8_t *bytes, size_t length);

/* Whether it is full of the pattern but for the first bytes of what is lent. */
int place_untouched(const struct place *p, size_t first);

/* Puts the pattern over the first bytes of what is lent, or over everything. */
void place_restore(struct place *p, size_t first);
void place_clear(struct place *p);

#endif
