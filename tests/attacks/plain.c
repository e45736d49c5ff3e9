/* The guard in plain C of bench/plain under the archive's names: other software that comes to the same table, and
 * that can be changed in one place. */
#include "../../bench/plain/guard.h"

typedef struct plain_guard state;

_Static_assert(sizeof(state) <= GUARD_MEMORY_LENGTH, "it has room in a guard's memory");

guard_outcome guard_entry_fresh(uint8_t *memory, size_t length) { return (void)length, plain_fresh((state *)memory); }

guard_outcome guard_entry_call(uint8_t *memory, size_t length, const uint8_t *call, size_t n, uint8_t *answer,
    size_t a, uint8_t *request, size_t q)
{
    return (void)length, plain_call((state *)memory, call, n, answer, a, request, q);
}

/* ---- calls of a read-only guard */

static int is_taken(const uint8_t *call, size_t n)
{
    switch (call[0]) {
    case GUARD_CLOSE: case GUARD_SEEK: case GUARD_READ: case GUARD_READDIR: case GUARD_STAT: return 1;
    case GUARD_OPEN: return n > 1 && call[1] == 1;
    default: return 0;
    }
}

/* 22 or 36, or 30 where the form is right. A guard of the root alone judges it: no handle is open there, so 22 is the
 * form's, but for an unmap, which is of no map. */
static guard_outcome judge_form(const uint8_t *call, size_t n)
{
    static state root;
    static uint8_t answer[GUARD_ANSWER_LENGTH], request[GUARD_REQUEST_LENGTH];
    plain_fresh(&root);
    guard_outcome o = plain_call(&root, call, n, answer, sizeof answer, request, sizeof request);
    int is_wrong = o.kind == GUARD_REFUSED && (o.number == GUARD_MALFORMED || o.number == GUARD_TOO_LONG) &&
        !(call[0] == GUARD_UNMAP && n == 1 + GUARD_ADDRESS_LENGTH);
    return is_wrong ? o : (guard_outcome){GUARD_REFUSED, GUARD_READ_ONLY, 0};
}

/* A call of no bytes is refused 22, after what comes before that. */
guard_outcome guard_entry_reader_call(uint8_t *memory, size_t length, const uint8_t *call, size_t n, uint8_t *answer,
    size_t a, uint8_t *request, size_t q)
{
    guard_outcome first = plain_call((state *)memory, call, 0, answer, a, request, q);
    if (n == 0 || first.number != GUARD_MALFORMED)
        return first;
    return is_taken(call, n) ? guard_entry_call(memory, length, call, n, answer, a, request, q) : judge_form(call, n);
}

guard_outcome guard_entry_reply(uint8_t *memory, size_t length, const uint8_t *reply, size_t n, uint8_t *answer,
    size_t a, uint8_t *request, size_t q)
{
    return (void)length, plain_reply((state *)memory, reply, n, answer, a, request, q);
}

guard_outcome guard_entry_save(uint8_t *memory, size_t length, uint8_t *image, size_t n, uint8_t *digest)
{
    return (void)length, plain_save((state *)memory, image, n, digest);
}

guard_outcome guard_entry_load(uint8_t *memory, size_t length, const uint8_t *image, size_t n, const uint8_t *digest,
    size_t d)
{
    return (void)length, plain_load((state *)memory, image, n, digest, d);
}
