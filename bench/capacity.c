/* Look up and constant of a rule table, empty and full, against a loop that sums the same words. A constant in the last place has nothing
   behind it that the collector copies, one in the first place all nodes of the other places. With any argument a line for each call and
   table, for bench/beside. */
#include "filling.h"
#include "lampgrotto.h"
#include "timing.h"
#include <stdio.h>

static const uint8_t setting[16] = {1, 7, 3, 0, 2, 5, 6, 4, 1, 0, 3, 2, 7, 5, 6, 1};
static uint32_t turn;

static void summing(void) { sum_words(words, length); }

static void looking(void) {
    uint32_t out[2];
    sink += lampgrotto_rule_look_up(words, length, turn++ % 32, setting, 16, out, 2);
}

static void writing(void) { sink += lampgrotto_constant(words, length, 31, turn++ % 65536); }
static void writing_first(void) { sink += lampgrotto_constant(words, length, 0, turn++ % 65536); }

int main(int words_given, char **given) {
    static const size_t capacities[] = {16, 256, 4096};
    int alone = words_given > 1;
    (void)given;
    if (!alone) printf("| capacity | nodes | words | sum ns | look up ns | ratio | constant ns | ratio | in the first place ns | ratio |\n|---|---|---|---|---|---|---|---|---|---|\n");
    for (int c = 0; c < 3; c++)
        for (int full = 0; full < 2; full++) {
            uint32_t nodes = fill_up(8, capacities[c]);
            if (!full && lampgrotto_open(words, length, features, 16, capacities[c])) return 1;
            double s = best(summing), l = best(looking), k = best(writing), f = best(writing_first);
            const char *filled = full ? "full" : "empty";
            if (alone) printf("look up\t%zu, %s\t%.1f\nconstant\t%zu, %s\t%.1f\n", capacities[c], filled, l, capacities[c], filled, k);
            if (alone) printf("constant in the first place\t%zu, %s\t%.1f\n", capacities[c], filled, f);
            else printf("| %zu | %u | %zu | %.0f | %.0f | %.1f | %.0f | %.1f | %.0f | %.1f |\n", capacities[c], full ? nodes : 0, length, s, l, l / s, k, k / s, f, f / s);
            fflush(stdout);
        }
    return 0;
}
