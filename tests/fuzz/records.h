/* The fuzzer's input: a byte that says where things lie, then records. A record is one byte that says what is handed
 * in, a length (2, little-endian) and so many bytes, fewer at the end. */
#ifndef RECORDS_H
#define RECORDS_H

#include <stddef.h>
#include <stdint.h>

enum what {
    CALL,
    REPLY,
    TRUE_REPLY,   /* a reply that the host works out */
    SAVE,         /* into a buffer whose length is the first two bytes, or into the longest */
    LOAD,         /* the bytes as an image, with its digest */
    LOAD_BADLY,   /* with another digest, or one that is cut short */
    LOAD_SAVED,   /* what was saved last */
    MOVE,         /* the guard goes to another address */
    REPLY_OVER,   /* the host's reply with the bytes over its front: a map's is too long for a record */
    REPLY_UNDER,  /* with the bytes over its end */
    FULL_REPLY    /* the host's disk is full */
};

enum { WHATS = FULL_REPLY + 1 };

struct record {
    enum what what;
    int short_answer, short_request; /* buffers one byte too short */
    const uint8_t *bytes;
    size_t length;
};

/* The first record of n bytes; how many it takes, 0 where there is none. */
size_t record_read(const uint8_t *data, size_t n, struct record *r);

#endif
