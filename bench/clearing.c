/* C's memset as a plain loop, linked into every program of the benchmark: the library, the plain C and BuDDy clear by it alike. Under the
   emulator that of the C library goes byte by byte, so that clearing would be most of what a call on a small table takes. */
#include <stddef.h>
#include <stdint.h>
#include <string.h>

/* the loops are not made calls of memset again */
#if defined(__clang__)
#define AS_WRITTEN __attribute__((no_builtin("memset")))
#else
#define AS_WRITTEN __attribute__((optimize("no-tree-loop-distribute-patterns")))
#endif

typedef uint64_t __attribute__((may_alias)) word;

AS_WRITTEN void *memset(void *to, int value, size_t n) {
    uint8_t *p = to, *end = p + n;
    while (p < end && (uintptr_t)p % sizeof(word)) *p++ = (uint8_t)value;
    for (; end - p >= 64; p += 64)
        for (int j = 0; j < 8; j++) ((word *)p)[j] = 0x0101010101010101u * (uint8_t)value;
    while (p < end) *p++ = (uint8_t)value;
    return to;
}
