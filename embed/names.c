/* What the library tells of itself: the names of its refusals, and its version. */
#include "cuestore.h"

static const char *const names[] = {
    [CUESTORE_TOO_LONG] = "TooLong",
    [CUESTORE_BAD_CHARACTER] = "BadCharacter",
    [CUESTORE_BAD_STRING] = "BadString",
    [CUESTORE_BAD_NUMBER] = "BadNumber",
    [CUESTORE_INT_RANGE] = "IntRange",
    [CUESTORE_TEXT_TOO_LONG] = "TextTooLong",
    [CUESTORE_SYNTAX] = "Syntax",
    [CUESTORE_NESTING] = "Nesting",
    [CUESTORE_LEFT_OUT] = "LeftOut",
    [CUESTORE_UNKNOWN_NAME] = "UnknownName",
    [CUESTORE_FIELD_REFERENCE] = "FieldReference",
    [CUESTORE_REPEATED] = "Repeated",
    [CUESTORE_CYCLE] = "Cycle",
    [CUESTORE_TOO_LARGE] = "TooLarge",
    [CUESTORE_TOO_DEEP] = "TooDeep",
    [CUESTORE_NOT_SCALAR] = "NotScalar",
    [CUESTORE_VERSION_UNKNOWN] = "Version",
    [CUESTORE_NOT_STATE] = "NotState",
    [CUESTORE_MEMORY] = "Memory",
};

const char *cuestore_refusal_name(uint8_t refusal) {
    const char *name = refusal < sizeof names / sizeof names[0] ? names[refusal] : 0;
    return name ? name : "";
}

const char *cuestore_version(void) {
    return CUESTORE_VERSION;
}
