/* The configuration store as a library: each call takes bytes and writes bytes.
 *
 * A site is its state's bytes. Nothing is kept between two calls, and there is nothing to free. Calls take memory by
 * malloc and realloc, give it back before they return, and may be made from several threads at once, but not from a
 * signal handler, nor in the forked child of a process that has threads.
 *
 * Each call writes its answer to the front of `out`, which has `room` bytes and must not overlap an input. Where the
 * answer has no room, nothing is written, the status is CUESTORE_NO_ROOM, and `length` says how many bytes it wants: so
 * a call with a room of 0 asks for the length. Where a length or a room is 0, the pointer may be null.
 */
#ifndef CUESTORE_H
#define CUESTORE_H

#include <stddef.h>
#include <stdint.h>

/* The version of this header; that of the library is cuestore_version(). */
#define CUESTORE_VERSION "0.1.0"
#define CUESTORE_VERSION_MAJOR 0
#define CUESTORE_VERSION_MINOR 1
#define CUESTORE_VERSION_PATCH 0

#ifdef __cplusplus
extern "C" {
#endif

/* What a call came to. */
typedef struct {
    size_t length;   /* bytes of the answer, also where it has no room; 0 where there is none */
    uint64_t place;  /* the byte of the input at which it is refused; 0 where none is */
    uint8_t status;  /* one of the statuses below */
    uint8_t refusal; /* the number of the refusal, below; 0 where there is none */
    uint8_t input;   /* which input is refused, from 1; 0 where none is, also where memory ran out for the answer */
    uint8_t later[5]; /* room for later fields; what stands in it has no meaning yet */
} cuestore_outcome;

/* Statuses. */
enum {
    CUESTORE_DONE = 0,       /* the answer is a state, a text, JSON, or an empty report */
    CUESTORE_REFUSED = 1,    /* an input is refused, or memory ran out; nothing was written */
    CUESTORE_CONFLICTS = 2,  /* the answer begins with conflict lines */
    CUESTORE_INCOMPLETE = 3, /* the answer is lines of what is incomplete */
    CUESTORE_NO_ROOM = 5     /* the answer has no room; nothing was written */
};

/* Refusals. The numbers stay the same for good. */
enum {
    CUESTORE_TOO_LONG = 1,
    CUESTORE_BAD_CHARACTER = 2,
    CUESTORE_BAD_STRING = 3,
    CUESTORE_BAD_NUMBER = 4,
    CUESTORE_INT_RANGE = 5,
    CUESTORE_TEXT_TOO_LONG = 6,
    CUESTORE_SYNTAX = 7,
    CUESTORE_NESTING = 8,
    CUESTORE_LEFT_OUT = 9,
    CUESTORE_UNKNOWN_NAME = 10,
    CUESTORE_FIELD_REFERENCE = 11,
    CUESTORE_REPEATED = 12,
    CUESTORE_CYCLE = 13,
    CUESTORE_TOO_LARGE = 14,
    CUESTORE_TOO_DEEP = 15,
    CUESTORE_NOT_SCALAR = 16,
    CUESTORE_VERSION_UNKNOWN = 17, /* Version: a state of a version that the library doesn't know */
    CUESTORE_NOT_STATE = 18,
    CUESTORE_MEMORY = 24
};

/* The state of a site that has accepted nothing. */
cuestore_outcome cuestore_new(uint8_t *out, size_t room);

/* The state of a site that has accepted all that this state has, and the text. */
cuestore_outcome cuestore_submit(const uint8_t *state, size_t state_length, const uint8_t *text, size_t text_length,
                                 uint8_t *out, size_t room);

/* The state of a site that has accepted all that both states have. */
cuestore_outcome cuestore_merge(const uint8_t *state, size_t state_length, const uint8_t *other, size_t other_length,
                                uint8_t *out, size_t room);

/* The JSON of the configuration; or, where there are any, the conflict lines; or else the lines of what is incomplete. */
cuestore_outcome cuestore_export(const uint8_t *state, size_t state_length, uint8_t *out, size_t room);

/* The conflict lines, and then the lines of what is incomplete. */
cuestore_outcome cuestore_report(const uint8_t *state, size_t state_length, uint8_t *out, size_t room);

/* All that is known, as one text. */
cuestore_outcome cuestore_print(const uint8_t *state, size_t state_length, uint8_t *out, size_t room);

/* The name of a refusal, such as "BadNumber", by its number; "" of a number that none has. It stays where it is. */
const char *cuestore_refusal_name(uint8_t refusal);

/* The version of the library, such as "0.1.0". It stays where it is. */
const char *cuestore_version(void);

#ifdef __cplusplus
}
#endif

#endif
