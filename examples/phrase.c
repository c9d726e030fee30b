/* A rule is made in a table, its sheet is written to a file, and phrases are looked up in the sheet's bytes, as a phone does it.
   The table's own look up also tells how many questions each phrase takes: "how many" matters only to the polite.
   Feature 0 is "polite" (no, yes), feature 1 "how many" (one, two, more); the rule is "polite and not two". */
#include "lampgrotto.h"
#include <stdio.h>

enum { CAPACITY = 16, WORDS = 8192 + 32 * CAPACITY, SCRATCH = 256, SHEET = 256 };
enum { POLITE, NOT_TWO, BOTH }; /* places of the table */
enum { SMALLER = 1 };           /* of two rules that give 0 or 1: both */

static uint32_t table[WORDS], scratch[SCRATCH], out[2];
static uint8_t sheet[SHEET];

/* every call answers 0, or why it was refused */
static uint32_t make(void) {
    static const uint8_t features[2] = {2, 3};
    uint32_t refused = lampgrotto_open(table, WORDS, features, 2, CAPACITY);
    if (!refused) refused = lampgrotto_literal(table, WORDS, POLITE, 0, 1 << 1, out, 1);
    if (!refused) refused = lampgrotto_literal(table, WORDS, NOT_TWO, 1, 1 << 0 | 1 << 2, out, 1);
    if (!refused) refused = lampgrotto_apply(table, WORDS, scratch, SCRATCH, BOTH, SMALLER, POLITE, NOT_TWO);
    if (!refused) refused = lampgrotto_write(table, WORDS, BOTH, sheet, SHEET, out, 1);
    return refused;
}

static int keep(const char *name, size_t length) {
    FILE *file = fopen(name, "wb");
    if (!file) return 0;
    size_t written = fwrite(sheet, 1, length, file);
    return fclose(file) == 0 && written == length;
}

int main(int count, char **words) {
    static const char *const polite[2] = {"not polite", "polite"}, *const many[3] = {"one", "two", "more"};
    uint32_t refused = make();
    if (refused) {
        fprintf(stderr, "refused: %u\n", (unsigned)refused);
        return 1;
    }
    size_t length = out[0];
    printf("a sheet of %u bytes\n", (unsigned)length);
    if (count > 1 && !keep(words[1], length)) {
        fprintf(stderr, "%s cannot be written\n", words[1]);
        return 1;
    }
    for (uint8_t p = 0; p < 2; p++)
        for (uint8_t m = 0; m < 3; m++) {
            const uint8_t setting[2] = {p, m};
            unsigned phrase = (unsigned)lampgrotto_look_up(sheet, length, setting, 2);
            lampgrotto_rule_look_up(table, WORDS, BOTH, setting, 2, out, 2);
            printf("%s, %s: phrase %u, features asked %u\n", polite[p], many[m], phrase, (unsigned)out[1]);
        }
    return 0;
}
