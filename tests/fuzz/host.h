/* An honest host for the fuzzer. It keeps a plain tree: what it was asked for, as the guard took the replies. Its own
 * replies are then right, and the guard may not stop at one. */
#ifndef HOST_H
#define HOST_H

#include <stddef.h>
#include <stdint.h>

void host_begin(void);

/* The right reply to a request; its length. */
size_t host_reply(const uint8_t *request, size_t length, uint8_t *reply);

/* The guard took a reply, the host's or another: the request is obeyed. */
void host_obey(const uint8_t *request, size_t length, const uint8_t *reply);

/* Whether a cut makes its file longer. */
int host_grows(const uint8_t *cut);

/* The number that a rename of two paths of the right form and length is refused by, 0 where it is done or sent on, by
 * the words of the rules; whether it is done with nothing sent. */
unsigned host_rename_number(const uint8_t *path, size_t length, const uint8_t *new_path, size_t new_length);
int host_is_own_path(const uint8_t *path, size_t length, const uint8_t *new_path, size_t new_length);

/* A save, and a load of it: maps stay as they are. */
void host_saved(void);
void host_loaded(void);

/* A load of a sound image that no save gave: its tree, the files taken to be of zeros. */
void host_loaded_image(const uint8_t *image);

/* Whether the host can be sure of its pages: none was lost, and all images were saved before. */
int host_is_sure(void);

#endif
