/* Refuses each allocation of each call of the library in turn. The call then tells that memory ran out and keeps `out`,
 * or it answers as it does with memory, where only a list could not be cut to its length; and nothing is left taken. */
#include "cuestore.h"

#include <stdio.h>
#include <stdlib.h>
#include <string.h>

/* How many allocations are still given, where it is not negative, and how many blocks are taken. */
static long given = -1, taken = 0;

void *__real_malloc(size_t size);
void *__real_realloc(void *block, size_t size);
void __real_free(void *block);

/* Whether this allocation is the one that is refused. */
static int is_refused(void) {
    return given >= 0 && given-- == 0;
}

void *__wrap_malloc(size_t size) {
    void *block = is_refused() ? NULL : __real_malloc(size);
    taken += block != NULL;
    return block;
}

void *__wrap_realloc(void *block, size_t size) {
    void *moved = is_refused() ? NULL : __real_realloc(block, size);
    taken += block == NULL && moved != NULL;
    return moved;
}

void __wrap_free(void *block) {
    taken -= block != NULL;
    __real_free(block);
}

static uint8_t one[4096], two[4096];
static size_t one_length, two_length;
static const char text[] = "#S: {port!: uint16 | *80, tags: [...], on?: bool}\na: #S\nb: {x: 1 | \"y\"}\n";

/* The calls of the library by number, on two states and a text. */
static cuestore_outcome called(int call, uint8_t *out, size_t room) {
    switch (call) {
    case 0: return cuestore_new(out, room);
    case 1: return cuestore_submit(one, one_length, (const uint8_t *)text, strlen(text), out, room);
    case 2: return cuestore_merge(one, one_length, two, two_length, out, room);
    case 3: return cuestore_export(two, two_length, out, room);
    case 4: return cuestore_report(two, two_length, out, room);
    default: return cuestore_print(two, two_length, out, room);
    }
}

/* Whether the call with this allocation refused is as it should be. */
static int holds(int call, const uint8_t *wanted, cuestore_outcome answer, long refused, int *was_refused) {
    static uint8_t out[4096];
    memset(out, 7, sizeof out);
    given = refused;
    cuestore_outcome got = called(call, out, sizeof out);
    *was_refused = given < 0;
    given = -1;
    if (taken != 0)
        return 0;
    if (got.status == CUESTORE_REFUSED) {
        for (size_t k = 0; k < sizeof out; k++)
            if (out[k] != 7)
                return 0;
        return got.refusal == CUESTORE_MEMORY && got.length == 0 && got.place == 0;
    }
    return got.status == answer.status && got.length == answer.length && memcmp(out, wanted, got.length) == 0;
}

int main(void) {
    static uint8_t wanted[4096];
    static const char other[] = "a: {tags: [\"p\", \"q\"], port: 443}\nc: <5 & !=2\n";
    uint8_t fresh[64];
    long tried = 0;
    cuestore_outcome made = cuestore_new(fresh, sizeof fresh);
    one_length =
        cuestore_submit(fresh, made.length, (const uint8_t *)other, strlen(other), one, sizeof one).length;
    two_length = called(1, two, sizeof two).length;
    for (int call = 0; call < 6; call++) {
        cuestore_outcome answer = called(call, wanted, sizeof wanted);
        int was_refused = 1;
        for (long k = 0; was_refused; k++) {
            if (answer.status == CUESTORE_REFUSED || !holds(call, wanted, answer, k, &was_refused)) {
                printf("FAILED: call %d, allocation %ld\n", call, k);
                return 1;
            }
            tried += was_refused;
        }
    }
    printf("ok %ld allocations refused, and none left taken\n", tried);
    return 0;
}
