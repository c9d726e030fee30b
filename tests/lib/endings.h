/* How the C tests write the ending of a call: its name in docs/SCOPE.md. */
#ifndef ENDINGS_H
#define ENDINGS_H

#include <stdint.h>
#include <stdio.h>

static void say(const char *what, uint32_t ending) {
    static const char *const names[13] = {"taken", "DAMAGED", "BAD PLACE", "NEWER", "BAD SHEET", "OTHER FEATURES", "BAD ARGUMENT",
                                          "BAD SELECTOR", "RANGE", "NO ROOM", "NO SPACE", "NONE", "BAD OPENING"};
    printf("%s: %s\n", what, ending < 13 ? names[ending] : "?");
}

#endif
