/* Apply and CASE with more and more scratch, which is cleared first; with little, a call remembers on its stack or in the far records.
   With any argument a line for each call, table and scratch, for bench/beside. */
#include "filling.h"
#include "lampgrotto.h"
#include "timing.h"
#include <stdio.h>

static struct calls at;
static uint32_t lent[1 << 20];
static size_t lent_length;

static void applying(void) { sink += lampgrotto_apply(words, length, lent, lent_length, APPLIED, DIFFER, at.apply_a, at.apply_b); }
static void choosing(void) {
    uint32_t branches[2] = {(uint32_t)at.case_a, (uint32_t)at.case_b};
    sink += lampgrotto_case(words, length, lent, lent_length, CHOSEN, SELECTOR, branches, 2);
}

int main(int words_given, char **given) {
    int alone = words_given > 1;
    (void)given;
    if (!alone) printf("| nodes in use | scratch words | apply us | CASE us |\n|---|---|---|---|\n");
    for (size_t capacity = 256; capacity <= 4096; capacity *= 4) {
        uint32_t nodes = fill(8, capacity, &at);
        for (size_t each = 0; each <= 256; each = each ? 4 * each : 4) {
            lent_length = each * capacity;
            double a = best(applying), c = best(choosing);
            if (alone) printf("apply\t%u, %zu\t%.1f\nCASE\t%u, %zu\t%.1f\n", nodes, lent_length, a, nodes, lent_length, c);
            else printf("| %u | %zu | %.0f | %.0f |\n", nodes, lent_length, a / 1000, c / 1000);
            fflush(stdout);
        }
    }
    return 0;
}
