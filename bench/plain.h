/* The same diagrams as a C program keeps them that trusts its memory: nodes from malloc, pointers, no checks, nothing collected. */
#ifndef PLAIN_H
#define PLAIN_H
#include <stddef.h>
#include <stdint.h>

typedef uintptr_t branch; /* 2 p + 1 for the phrase number p, or a node's address */

/* The diagrams of a table's words, made anew; the root of a place of the last words that were loaded. */
void plain_load(const uint32_t *t);
branch plain_root(size_t place);

uint32_t plain_look_up(branch b, const uint8_t *setting);
uint32_t plain_asked(branch b, const uint8_t *setting); /* how many features that asks */
branch plain_apply(uint32_t op, branch a, branch b);
branch plain_case(branch selector, const branch *branches, size_t count);
branch plain_restrict(branch b, unsigned feature, unsigned value);
branch plain_forget(branch b, unsigned feature);
uint64_t plain_count(branch b, uint32_t number);
int plain_next(branch b, uint32_t number, uint8_t *setting);

/* The sheet of a rule, and how many bytes it has; the rule of a sheet which is trusted; the number that it gives a setting. */
size_t plain_write(branch b, uint8_t *sheet);
branch plain_read(const uint8_t *sheet);
uint32_t plain_sheet_look_up(const uint8_t *sheet, const uint8_t *setting);
#endif
