/* Costs made, joined and read from C: the scope's examples over a feature of size 2 and one of size 3, with what is refused.
   It writes what it gets, call by call; the file expected has what it must get. */
#include "endings.h"
#include "lampgrotto.h"
#include <stdio.h>
#include <string.h>

enum { CAPACITY = 8, WORDS = 8192 + 32 * CAPACITY, SCRATCH = 256, PAST = 3, MOST = 1000000000 };
enum { P, Q, SUM, RESULT, OTHER };    /* places of the cost table */
enum { ALL, FIRST, NOTHING, ANSWER }; /* places of the rule table: 1 everywhere, 1 where feature 0 is 0, 0 everywhere */

static const uint8_t features[2] = {2, 3};
static const int64_t p_prices[2] = {10, 4}, q_prices[3] = {0, 5, -3};
static uint32_t costs[WORDS + PAST], rules[WORDS], scratch[SCRATCH], out[17];

/* ---- what is written */

/* the ending, then the first n result words as signed numbers, which held 1431655765 before */
static void say_results(const char *what, uint32_t ending, int n) {
    say(what, ending);
    for (int i = 0; i < n; i++) printf(" %ld", (long)(int32_t)out[i]);
    printf("\n");
    memset(out, 85, sizeof out);
}

/* what a place of either table gives each setting, and how many features it asks there: the stepper goes through them */
static void say_settings(const char *name, int cost, size_t place) {
    uint8_t setting[2] = {0, 0};
    uint32_t asked[6], n = 0;
    printf("%s =", name);
    do {
        if (cost) lampgrotto_cost_look_up(costs, WORDS, place, setting, 2, out, 2);
        else lampgrotto_rule_look_up(rules, WORDS, place, setting, 2, out, 2);
        printf(" %ld", (long)(int32_t)out[0]);
        asked[n++] = out[1];
        lampgrotto_step(features, 2, setting, 2, out, 17);
        setting[0] = (uint8_t)out[1];
        setting[1] = (uint8_t)out[2];
    } while (!out[0] && n < 6);
    printf("; asked");
    for (uint32_t i = 0; i < n; i++) printf(" %u", (unsigned)asked[i]);
    memset(out, 85, sizeof out);
    printf("\n");
}

static void say_cost(const char *name, size_t place) { say_settings(name, 1, place); }
static void say_rule(const char *name, size_t place) { say_settings(name, 0, place); }
static void say_tally(void) { say_results("tally", lampgrotto_cost_tally(costs, WORDS, out, 17), 1); }

/* ---- the scope's examples */

/* P, Q and P + Q, and the rules, in their places; no scratch will do too */
static void fresh(void) {
    lampgrotto_cost_open(costs, WORDS, features, 2, CAPACITY);
    lampgrotto_price(costs, WORDS, P, 0, p_prices, 2);
    lampgrotto_price(costs, WORDS, Q, 1, q_prices, 3);
    lampgrotto_add(costs, WORDS, scratch, 0, SUM, P, Q);
    lampgrotto_open(rules, WORDS, features, 2, CAPACITY);
    lampgrotto_constant(rules, WORDS, ALL, 1);
    lampgrotto_literal(rules, WORDS, FIRST, 0, 1, out, 17);
    memset(out, 85, sizeof out);
}

static void the_costs(void) {
    say("open", lampgrotto_cost_open(costs, WORDS, features, 2, CAPACITY));
    say_tally();
    say("P: price list of feature 0", lampgrotto_price(costs, WORDS, P, 0, p_prices, 2));
    say_cost("P", P);
    say("Q: price list of feature 1", lampgrotto_price(costs, WORDS, Q, 1, q_prices, 3));
    say_cost("Q", Q);
    say_tally();
    say("P + Q", lampgrotto_add(costs, WORDS, scratch, SCRATCH, SUM, P, Q));
    say_cost("P + Q", SUM);
    say_tally();
    say("0 for P", lampgrotto_cost_constant(costs, WORDS, P, 0));
    say("0 for Q", lampgrotto_cost_constant(costs, WORDS, Q, 0));
    say_cost("P + Q alone", SUM);
    say_tally();
}

static void lowest_costs(void) {
    fresh();
    say_results("lowest of P + Q", lampgrotto_lowest(costs, WORDS, rules, WORDS, scratch, SCRATCH, SUM, ALL, out, 17), 17);
    say_results("where feature 0 is 0", lampgrotto_lowest(costs, WORDS, rules, WORDS, scratch, SCRATCH, SUM, FIRST, out, 17), 3);
    say_results("nowhere", lampgrotto_lowest(costs, WORDS, rules, WORDS, scratch, SCRATCH, SUM, NOTHING, out, 17), 17);
    say_results("lowest of Q, below 0", lampgrotto_lowest(costs, WORDS, rules, WORDS, scratch, 0, Q, ALL, out, 17), 3);
}

static void below_and_chosen(void) {
    fresh();
    say("P + Q less P", lampgrotto_less(rules, WORDS, costs, WORDS, scratch, SCRATCH, ANSWER, SUM, P));
    say_rule("it", ANSWER);
    say("P less Q", lampgrotto_less(rules, WORDS, costs, WORDS, scratch, 0, ANSWER, P, Q));
    say_rule("it", ANSWER);
    say("P where feature 0 is 0, else Q", lampgrotto_choose(costs, WORDS, rules, WORDS, scratch, SCRATCH, RESULT, FIRST, P, Q));
    say_cost("it", RESULT);
    say("P + Q everywhere", lampgrotto_choose(costs, WORDS, rules, WORDS, scratch, 0, RESULT, ALL, SUM, Q));
    say_results("the same as P + Q", lampgrotto_cost_same(costs, WORDS, RESULT, SUM, out, 17), 1);
}

/* ---- the other operations */

static void operations(void) {
    fresh();
    say("P + Q - Q", lampgrotto_subtract(costs, WORDS, scratch, SCRATCH, RESULT, SUM, Q));
    say_results("the same as P", lampgrotto_cost_same(costs, WORDS, RESULT, P, out, 17), 1);
    say_results("the same as Q", lampgrotto_cost_same(costs, WORDS, RESULT, Q, out, 17), 1);
    say("Q - P", lampgrotto_subtract(costs, WORDS, scratch, 0, RESULT, Q, P));
    say_cost("it", RESULT);
    say("smaller of P, Q", lampgrotto_smaller(costs, WORDS, scratch, SCRATCH, RESULT, P, Q));
    say_cost("it", RESULT);
    say("larger of P, Q", lampgrotto_larger(costs, WORDS, scratch, SCRATCH, RESULT, P, Q));
    say_cost("it", RESULT);
    say("Q times -2", lampgrotto_scale(costs, WORDS, scratch, SCRATCH, RESULT, Q, -2));
    say_cost("it", RESULT);
    say("copy", lampgrotto_cost_copy(costs, WORDS, OTHER, RESULT));
    say("it times 0", lampgrotto_scale(costs, WORDS, scratch, SCRATCH, RESULT, RESULT, 0));
    say_cost("it", RESULT);
    say_cost("the copy", OTHER);
    say("P + P, into P", lampgrotto_add(costs, WORDS, scratch, SCRATCH, P, P, P));
    say_cost("P", P);
}

/* ---- the range of costs */

static void range(void) {
    static const int64_t ends[2] = {-MOST, MOST}, most[2] = {MOST, 0}, one[3] = {0, 1, 0};
    lampgrotto_cost_open(costs, LAMPGROTTO_WORDS(1), features, 2, 1);
    say("price list -1,000,000,000, 1,000,000,000", lampgrotto_price(costs, LAMPGROTTO_WORDS(1), OTHER, 0, ends, 2));
    say("1,000,000,000", lampgrotto_cost_constant(costs, LAMPGROTTO_WORDS(1), P, MOST));
    say("1", lampgrotto_cost_constant(costs, LAMPGROTTO_WORDS(1), Q, 1));
    say("their sum, in a full table", lampgrotto_add(costs, LAMPGROTTO_WORDS(1), scratch, SCRATCH, SUM, P, Q));
    say("1,000,000,000 and 0", lampgrotto_add(costs, LAMPGROTTO_WORDS(1), scratch, SCRATCH, SUM, P, RESULT));
    say("that - the price list", lampgrotto_subtract(costs, LAMPGROTTO_WORDS(1), scratch, SCRATCH, RESULT, SUM, OTHER));
    say("the price list times -1", lampgrotto_scale(costs, LAMPGROTTO_WORDS(1), scratch, SCRATCH, RESULT, OTHER, -1));
    lampgrotto_cost_open(costs, WORDS, features, 2, CAPACITY);
    say("-1,000,000,000", lampgrotto_cost_constant(costs, WORDS, OTHER, -MOST));
    say_cost("it", OTHER);
    say("times -1", lampgrotto_scale(costs, WORDS, scratch, SCRATCH, OTHER, OTHER, -1));
    say_cost("it", OTHER);
    say("times 2", lampgrotto_scale(costs, WORDS, scratch, SCRATCH, OTHER, OTHER, 2));
    lampgrotto_price(costs, WORDS, P, 0, most, 2);
    lampgrotto_price(costs, WORDS, Q, 1, one, 3);
    say("too much at one setting", lampgrotto_add(costs, WORDS, scratch, SCRATCH, SUM, P, Q));
    say_cost("still", SUM);
    say("the larger", lampgrotto_larger(costs, WORDS, scratch, SCRATCH, SUM, P, Q));
    say_cost("it", SUM);
}

/* ---- room and lent words */

static void room(void) {
    for (size_t capacity = 3; capacity >= 2; capacity--) {
        size_t words = LAMPGROTTO_WORDS(capacity);
        printf("capacity %u\n", (unsigned)capacity);
        lampgrotto_cost_open(costs, words, features, 2, capacity);
        lampgrotto_price(costs, words, P, 0, p_prices, 2);
        lampgrotto_price(costs, words, Q, 1, q_prices, 3);
        say("P + Q", lampgrotto_add(costs, words, scratch, SCRATCH, SUM, P, Q));
        say_results("tally", lampgrotto_cost_tally(costs, words, out, 17), 1);
    }
    say("another price list", lampgrotto_price(costs, LAMPGROTTO_WORDS(2), SUM, 0, q_prices, 2));
    fresh();
    lampgrotto_open(rules, LAMPGROTTO_WORDS(1), features, 2, 1);
    say("P + Q less P, one node", lampgrotto_less(rules, LAMPGROTTO_WORDS(1), costs, WORDS, scratch, SCRATCH, ALL, SUM, P));
    say("P less Q, two nodes", lampgrotto_less(rules, LAMPGROTTO_WORDS(1), costs, WORDS, scratch, SCRATCH, ALL, P, Q));
}

static void short_results(void) {
    static const uint8_t setting[2] = {0, 2};
    fresh();
    say_results("look up, no room for it", lampgrotto_cost_look_up(costs, WORDS, Q, setting, 2, out, 0), 2);
    say_results("look up, one word", lampgrotto_cost_look_up(costs, WORDS, Q, setting, 2, out, 1), 2);
    say_results("look up, two words", lampgrotto_cost_look_up(costs, WORDS, Q, setting, 2, out, 2), 3);
    say_results("lowest, two words", lampgrotto_lowest(costs, WORDS, rules, WORDS, scratch, SCRATCH, Q, ALL, out, 2), 3);
    say_results("lowest, refused, two words", lampgrotto_lowest(costs, WORDS, rules, WORDS, scratch, SCRATCH, Q, NOTHING, out, 2), 3);
}

/* ---- what is refused */

static void openings(void) {
    static const uint8_t large[2] = {2, 9};
    say("open, no features", lampgrotto_cost_open(costs, WORDS, features, 0, CAPACITY));
    say("open, a size of 9", lampgrotto_cost_open(costs, WORDS, large, 2, CAPACITY));
    say("open, capacity 0", lampgrotto_cost_open(costs, WORDS, features, 2, 0));
    say("open, capacity 4,097", lampgrotto_cost_open(costs, WORDS, features, 2, 4097));
    say("open, a word short", lampgrotto_cost_open(costs, WORDS - 1, features, 2, CAPACITY));
}

static void bad_arguments(void) {
    static const int64_t low[2] = {0, -MOST - 1}, high[3] = {MOST + 1, 0, 0};
    static const uint8_t setting[2] = {0, 3};
    say("constant, too low", lampgrotto_cost_constant(costs, WORDS, OTHER, -MOST - 1));
    say("constant, of 64 bits", lampgrotto_cost_constant(costs, WORDS, OTHER, INT64_MAX));
    say("price, feature 2", lampgrotto_price(costs, WORDS, OTHER, 2, p_prices, 2));
    say("price, one too few", lampgrotto_price(costs, WORDS, OTHER, 1, q_prices, 2));
    say("price, one too many", lampgrotto_price(costs, WORDS, OTHER, 0, q_prices, 3));
    say("price, too low", lampgrotto_price(costs, WORDS, OTHER, 0, low, 2));
    say("price, too high", lampgrotto_price(costs, WORDS, OTHER, 1, high, 3));
    say("scale, too high", lampgrotto_scale(costs, WORDS, scratch, SCRATCH, OTHER, P, MOST + 1));
    say("scale, of 64 bits", lampgrotto_scale(costs, WORDS, scratch, SCRATCH, OTHER, P, INT64_MIN));
    say_results("look up, no such value", lampgrotto_cost_look_up(costs, WORDS, P, setting, 2, out, 17), 2);
    say_results("look up, a value short", lampgrotto_cost_look_up(costs, WORDS, P, setting, 1, out, 17), 2);
}

/* the calls that are lent both tables; w words of costs and v of rules are lent, and the places are beyond the tables by p and q */
static void both_calls(size_t w, size_t v, size_t p, size_t q) {
    say("choose", lampgrotto_choose(costs, w, rules, v, scratch, SCRATCH, SUM, FIRST + q, SUM + p, SUM));
    say("less", lampgrotto_less(rules, v, costs, w, scratch, SCRATCH, NOTHING + q, P + p, P));
    say_results("lowest", lampgrotto_lowest(costs, w, rules, v, scratch, SCRATCH, SUM + p, ALL + q, out, 17), 3);
}

/* every call once, so that a call that is taken changes nothing; w words are lent, and a place is beyond the table by p */
static void each_call(size_t w, size_t p) {
    static const uint8_t setting[2] = {1, 2};
    say("constant", lampgrotto_cost_constant(costs, w, OTHER + p, 0));
    say("copy", lampgrotto_cost_copy(costs, w, OTHER, OTHER + p));
    say("price", lampgrotto_price(costs, w, P + p, 0, p_prices, 2));
    say("add", lampgrotto_add(costs, w, scratch, SCRATCH, SUM, P + p, Q));
    say("subtract", lampgrotto_subtract(costs, w, scratch, SCRATCH, P, SUM, Q + p));
    say("smaller", lampgrotto_smaller(costs, w, scratch, SCRATCH, P + p, P, P));
    say("larger", lampgrotto_larger(costs, w, scratch, SCRATCH, Q, Q, Q + p));
    say("scale", lampgrotto_scale(costs, w, scratch, SCRATCH, SUM, SUM + p, 1));
    say_results("look up", lampgrotto_cost_look_up(costs, w, SUM + p, setting, 2, out, 17), 2);
    say_results("same", lampgrotto_cost_same(costs, w, P, P + p, out, 17), 1);
    say_results("tally", lampgrotto_cost_tally(costs, w, out, 17), 1);
    both_calls(w, WORDS, p, 0);
}

static void refusals(void) {
    static uint32_t before[WORDS + PAST], rules_before[WORDS];
    fresh();
    memset(costs + WORDS, 1, PAST * sizeof *costs);
    memcpy(before, costs, sizeof costs);
    memcpy(rules_before, rules, sizeof rules);
    printf("-- arguments outside their ranges\n");
    bad_arguments();
    printf("-- each call, cost places beyond the table\n");
    each_call(WORDS, 16);
    printf("-- each call on both tables, rule places beyond the table\n");
    both_calls(WORDS, WORDS, 0, 32);
    printf("-- each call, a word of costs short\n");
    each_call(WORDS - 1, 0);
    printf("-- each call on both tables, a word of rules short\n");
    both_calls(WORDS, WORDS - 1, 16, 32);
    printf("-- each call, with words past the table\n");
    each_call(WORDS + PAST, 0);
    printf("the costs are %s, the rules %s\n", memcmp(before, costs, sizeof costs) ? "changed" : "kept",
           memcmp(rules_before, rules, sizeof rules) ? "changed" : "kept");
    costs[WORDS - 1] = 1;
    printf("-- each call, a word spoiled, and places beyond the table\n");
    each_call(WORDS, 16);
}

/* the other kind of table is no sound one, and tables over other features do not go together */
static void other_tables(void) {
    static const uint8_t swapped[2] = {3, 2};
    fresh();
    say("copy in a rule table", lampgrotto_cost_copy(rules, WORDS, OTHER, P));
    say("rule copy in a cost table", lampgrotto_copy(costs, WORDS, OTHER, P));
    say("choose, tables exchanged", lampgrotto_choose(rules, WORDS, costs, WORDS, scratch, SCRATCH, SUM, ALL, P, Q));
    printf("-- each call on both tables, other features\n");
    lampgrotto_open(rules, WORDS, swapped, 2, CAPACITY);
    both_calls(WORDS, WORDS, 0, 0);
    printf("-- each call on both tables, one feature more\n");
    lampgrotto_open(rules, WORDS, (const uint8_t[3]){2, 3, 2}, 3, CAPACITY);
    both_calls(WORDS, WORDS, 0, 0);
    printf("-- the same, and places beyond the tables\n");
    both_calls(WORDS, WORDS, 16, 0);
}

int main(void) {
    the_costs();
    lowest_costs();
    below_and_chosen();
    operations();
    range();
    room();
    short_results();
    openings();
    refusals();
    other_tables();
    return 0;
}
