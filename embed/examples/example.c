/* Two sites that say something each, and take each other's states. */
#include "cuestore.h"

#include <stdio.h>
#include <string.h>

static uint8_t north[4096], south[4096], both[4096], again[4096], answer[4096];

/* Writes the state of a new site that has accepted the text. */
static size_t said(const char *text, uint8_t *state, size_t room) {
    uint8_t fresh[64];
    cuestore_outcome made = cuestore_new(fresh, sizeof fresh);
    cuestore_outcome done =
        cuestore_submit(fresh, made.length, (const uint8_t *)text, strlen(text), state, room);
    if (done.status != CUESTORE_DONE)
        printf("status %d: refused %d at %llu in %d\n", done.status, done.refusal, (unsigned long long)done.place,
               done.input);
    return done.length;
}

int main(void) {
    size_t n = said("port: >=1 & <=65535", north, sizeof north);
    size_t s = said("port: 443", south, sizeof south);

    cuestore_outcome one = cuestore_merge(north, n, south, s, both, sizeof both);
    cuestore_outcome two = cuestore_merge(south, s, north, n, again, sizeof again);
    printf("equal bytes: %d\n", one.length == two.length && memcmp(both, again, one.length) == 0);

    cuestore_outcome json = cuestore_export(both, one.length, answer, sizeof answer);
    printf("%.*s\n", (int)json.length, (const char *)answer);

    json = cuestore_export(north, n, answer, sizeof answer);
    printf("status %d: %.*s", json.status, (int)json.length, (const char *)answer);

    cuestore_outcome room = cuestore_print(both, one.length, NULL, 0);
    printf("status %d: %zu bytes are wanted\n", room.status, room.length);

    said("port: 0443", answer, sizeof answer);
    cuestore_outcome empty = cuestore_submit(both, one.length, NULL, 0, answer, sizeof answer);
    printf("an empty text changes nothing: %d\n", empty.length == one.length && memcmp(answer, both, one.length) == 0);
    empty = cuestore_merge(NULL, 0, both, one.length, answer, sizeof answer);
    printf("no bytes are no state: refused %d in %d\n", empty.refusal, empty.input);
    return 0;
}
