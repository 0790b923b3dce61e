/* What is spoken to by lines: a line in, its print out. docs/LIBRARY.md says more.
 *
 * Two kinds of things are spoken to: a gateway, whose lines are the calls of docs/SCRIPT.md, and a bus of storages, whose
 * lines are those of docs/STORE.md. A line is given without its newline; what it is answered is what `zq replay` and
 * `zq store` print for it.
 *
 * What a call on a gateway hands to faces stands in its print, in the lines that begin with `>`: each is to be sent to its
 * face, and where it has the number of a reply, a line `sent` is to report it once it has been sent, or as soon as it is
 * known that nothing of it leaves.
 *
 * What callers owe, and nothing checks:
 *  - a handle is all zero bytes, or what a function of this file left there; it is not copied, its fields are not touched,
 *    and what it has is let go by zq_close;
 *  - one function at a time is called on a handle. It may go from thread to thread: a lock is enough for threads that share it;
 *  - a pointer that is not null, and its length, are of memory that the caller owns; what a function writes to (the handle,
 *    `out`, `len` and their like) overlaps nothing else that it is given;
 *  - malloc, realloc and free of the program are of one allocator, as those of the C library are; none of these functions is
 *    called from a signal handler, or in a forked child of a program with threads.
 */
#ifndef ZQ_H
#define ZQ_H

#include <stdbool.h>
#include <stddef.h>
#include <stdint.h>

#ifdef __cplusplus
extern "C" {
#endif

/* A gateway, a bus of storages, or nothing (all bytes zero). It owns memory: zq_close lets it go. */
typedef struct {
    void *at;
    bool live;
} zq_handle;

#define ZQ_EMPTY {0, false}

/* What each function answers. Where nothing else is said, nothing changed but at ZQ_OK. */
enum zq_status {
    ZQ_OK = 0,
    ZQ_BAD_LINE = 1,   /* the line is no line of its kind, or has a newline in it; of a head: it has a bad line */
    ZQ_NO_MEMORY = 2,  /* no memory was found: the same can be asked for again */
    ZQ_UNPRINTED = 3,  /* the line was done, and no memory was found for its print: zq_print gives it */
    ZQ_SHORT = 4,      /* the line was done, and its print has `*len` bytes, which is more than the room: zq_print gives it */
    ZQ_CLOSED = 5,     /* the handle has nothing */
    ZQ_IN_USE = 6,     /* of zq_open and zq_open_bus: the handle has something already */
    ZQ_NOTHING = 7,    /* of zq_next_deadline: nothing is waited for */
    ZQ_BAD_KEY = 8,    /* of zq_keys_meet and zq_key_includes: one of the two is no key, or no UTF-8 */
    ZQ_SPENT = 9,      /* of a bus: no memory was found amid a line `storage` or `get`; it joins and gets no more, its pairs stay */
    ZQ_NO_LOCAL = 10,  /* of zq_open_bus: the configuration lacks `local` */
    ZQ_NO_FREE_ID = 11, /* of zq_open_bus: no number is left for a face */
    ZQ_NULL = 12       /* a pointer is null that must not be */
};

/* Makes a gateway of the lines before a script's calls: `config`, and perhaps `start` and `best`. At ZQ_BAD_LINE
 * `*bad_line` is the number of the bad line, from 1 on. */
uint32_t zq_open(const uint8_t *head, size_t head_len, zq_handle *handle, uint64_t *bad_line);

/* Makes a bus of storages of such lines. */
uint32_t zq_open_bus(const uint8_t *head, size_t head_len, zq_handle *handle, uint64_t *bad_line);

/* Does what a line says, and writes the print of what comes of it to `out`, `*len` bytes of it. */
uint32_t zq_call(zq_handle *handle, const uint8_t *line, size_t line_len, uint8_t *out, size_t room, size_t *len);

/* Writes the print of what came of the last line to `out`, once more. It does nothing else. */
uint32_t zq_print(zq_handle *handle, uint8_t *out, size_t room, size_t *len);

/* Lets go what the handle has, if it has something. It has nothing then. */
uint32_t zq_close(zq_handle *handle);

/* When a gateway is to be told next that a moment has come, by a line `poll`, in milliseconds: the least deadline of all
 * that its open requests wait for. A bus waits for nothing. */
uint32_t zq_next_deadline(zq_handle *handle, uint64_t *deadline);

/* Whether two keys intersect, and whether key `a` includes key `b`. They take no memory, and may be called at any time. */
uint32_t zq_keys_meet(const uint8_t *a, size_t a_len, const uint8_t *b, size_t b_len, bool *meet);
uint32_t zq_key_includes(const uint8_t *a, size_t a_len, const uint8_t *b, size_t b_len, bool *includes);

/* The name of a status, as `ZQ_BAD_LINE`. */
const char *zq_name(uint32_t status);

#ifdef __cplusplus
}
#endif

#endif
