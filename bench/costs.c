/* The cost calls, and those on both tables, with more and more scratch: two costs that each add up prices over sixteen features of
   size 8, so sixteen nodes each, and what is worked out of them: the smaller and the larger of the two, with some hundred nodes. The
   unit is the sum of the table's words. With any argument a line for each call and scratch, for bench/beside. */
#include "lampgrotto.h"
#include "timing.h"
#include <stdio.h>
#include <stdlib.h>

enum { CAPACITY = 2048, WORDS = 32 * CAPACITY + 8192, LENT = 65536 };
enum { FIRST, SECOND, PRICE, RESULT, SMALLER, LARGER, UP, DOWN, SCALED }; /* places of the cost table */
enum { BELOW, WORKED, ALL };                                              /* places of the rule table */
enum { MOST = 1000000000 };
static uint32_t costs[WORDS], rules[WORDS], lent[LENT], out[17];
static size_t lent_length = LENT;
static const uint8_t features[16] = {8, 8, 8, 8, 8, 8, 8, 8, 8, 8, 8, 8, 8, 8, 8, 8}, setting[16];

static void taken(uint32_t ending) {
    if (ending) exit(1);
}

/* the place adds up a price of 0 to 3 for each feature */
static void sum_of_prices(size_t place, uint32_t seed) {
    int64_t prices[8];
    taken(lampgrotto_cost_constant(costs, WORDS, place, 0));
    for (size_t k = 0; k < 16; k++) {
        for (size_t v = 0; v < 8; v++) {
            seed = seed * 1103515245u + 12345u;
            prices[v] = (seed >> 16) % 4;
        }
        taken(lampgrotto_price(costs, WORDS, PRICE, k, prices, 8));
        taken(lampgrotto_add(costs, WORDS, lent, LENT, place, place, PRICE));
    }
}

/* the lowest cost of a place */
static int32_t lowest(size_t place) {
    taken(lampgrotto_lowest(costs, WORDS, rules, WORDS, lent, LENT, place, ALL, out, 17));
    return (int32_t)out[0];
}

/* the place gets that of another times a factor, then an amount more */
static void moved(size_t place, size_t from, int64_t factor, int64_t more) {
    taken(lampgrotto_scale(costs, WORDS, lent, LENT, place, from, factor));
    taken(lampgrotto_cost_constant(costs, WORDS, PRICE, more));
    taken(lampgrotto_add(costs, WORDS, lent, LENT, place, place, PRICE));
}

static uint32_t tally(void) {
    taken(lampgrotto_cost_tally(costs, WORDS, out, 1));
    return out[0];
}

/* ---- each call, on results that are there, so that it can be made again and again */
static void adding(void) { sink += lampgrotto_add(costs, WORDS, lent, lent_length, RESULT, FIRST, SECOND); }
static void adding_large(void) { sink += lampgrotto_add(costs, WORDS, lent, lent_length, RESULT, SMALLER, LARGER); }
static void adding_far(void) { sink += lampgrotto_add(costs, WORDS, lent, lent_length, RESULT, UP, DOWN); }
static void scaling(void) { sink += lampgrotto_scale(costs, WORDS, lent, lent_length, SCALED, LARGER, -3); }
static void lesser(void) { sink += lampgrotto_smaller(costs, WORDS, lent, lent_length, SMALLER, FIRST, SECOND); }
static void comparing(void) { sink += lampgrotto_less(rules, WORDS, costs, WORDS, lent, lent_length, WORKED, FIRST, SECOND); }
static void choosing(void) { sink += lampgrotto_choose(costs, WORDS, rules, WORDS, lent, lent_length, SMALLER, BELOW, FIRST, SECOND); }
static void seeking(void) { sink += lampgrotto_lowest(costs, WORDS, rules, WORDS, lent, lent_length, LARGER, BELOW, out, 17); }
static void seeking_all(void) { sink += lampgrotto_lowest(costs, WORDS, rules, WORDS, lent, lent_length, LARGER, ALL, out, 17); }
static void looking(void) { sink += lampgrotto_cost_look_up(costs, WORDS, LARGER, setting, 16, out, 2); }
static void constant(void) { sink += lampgrotto_cost_constant(costs, WORDS, RESULT, 7); }
static void summing(void) { sum_words(costs, WORDS); }

static const struct {
    const char *name;
    void (*call)(void);
} jobs[] = {{"look up", looking}, {"constant", constant}, {"add", adding}, {"add, large", adding_large}, {"add, at the end of the range", adding_far}, {"scale, large", scaling},
            {"smaller", lesser}, {"less", comparing}, {"choose", choosing}, {"lowest", seeking}, {"lowest of all", seeking_all}};
enum { JOBS = sizeof jobs / sizeof *jobs };

static size_t more(size_t scratch) { return scratch ? 4 * scratch : 1024; }

/* a line for each call and scratch: the call, the words lent, nanoseconds */
static void lines(void) {
    for (size_t j = 0; j < JOBS; j++)
        for (lent_length = 0; lent_length <= LENT; lent_length = more(lent_length)) printf("%s\t%zu\t%.1f\n", jobs[j].name, lent_length, best(jobs[j].call));
}

/* a row for each scratch, in times the sum of the table's words */
static void table(uint32_t nodes) {
    double unit = best(summing);
    printf("%u nodes of costs and %u of rules in use; the sum of %d words takes %.0f us\n\n| scratch words |", nodes, out[0], WORDS, unit / 1000);
    for (size_t j = 0; j < JOBS; j++) printf(" %s |", jobs[j].name);
    printf("\n|---|---|---|---|---|---|---|---|---|---|---|---|\n");
    for (lent_length = 0; lent_length <= LENT; lent_length = more(lent_length)) {
        printf("| %zu |", lent_length);
        for (size_t j = 0; j < JOBS; j++) {
            printf(" %.1f |", best(jobs[j].call) / unit);
            fflush(stdout);
        }
        printf("\n");
    }
}

int main(int words_given, char **given) {
    (void)given;
    taken(lampgrotto_cost_open(costs, WORDS, features, 16, CAPACITY));
    taken(lampgrotto_open(rules, WORDS, features, 16, CAPACITY));
    sum_of_prices(FIRST, 1);
    sum_of_prices(SECOND, 2);
    taken(lampgrotto_smaller(costs, WORDS, lent, LENT, SMALLER, FIRST, SECOND));
    taken(lampgrotto_larger(costs, WORDS, lent, LENT, LARGER, FIRST, SECOND));
    taken(lampgrotto_less(rules, WORDS, costs, WORDS, lent, LENT, BELOW, FIRST, SECOND));
    taken(lampgrotto_constant(rules, WORDS, ALL, 1));
    /* the larger cost up to the end of the range, and its highest amount less it: their sum is the most everywhere, though the highest of both
       together is more */
    moved(DOWN, LARGER, -1, 0);
    int64_t high = -(int64_t)lowest(DOWN);
    moved(DOWN, LARGER, -1, high);
    moved(UP, LARGER, 1, MOST - high);
    moved(SCALED, LARGER, -3, 0);
    uint32_t nodes = tally();
    taken(lampgrotto_tally(rules, WORDS, out, 1));
    if (words_given > 1) lines();
    else table(nodes);
    return 0;
}
