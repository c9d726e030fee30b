#include "cost_filling.h"
#include "lampgrotto.h"
#include <stdlib.h>
#include <string.h>

enum { RANDOM = 6 }; /* the first places, of which the calls are made */

uint32_t costs[139264];

uint32_t cost_nodes_in_use(void) {
    uint32_t out[1];
    if (lampgrotto_cost_tally(costs, length, out, 1)) abort();
    return out[0];
}

/* a place gets another with a price list more, then the smaller or the larger of that and of a third */
static void random_call(size_t first, size_t count) {
    int64_t prices[8];
    size_t place = first + chance((uint32_t)count);
    for (int v = 0; v < features[0]; v++) prices[v] = chance(4);
    lampgrotto_price(costs, length, AMOUNT, chance(16), prices, features[0]);
    lampgrotto_add(costs, length, scratch, scratch_length, place, first + chance((uint32_t)count), AMOUNT);
    if (chance(2)) lampgrotto_smaller(costs, length, scratch, scratch_length, place, place, first + chance((uint32_t)count));
    else lampgrotto_larger(costs, length, scratch, scratch_length, place, place, first + chance((uint32_t)count));
}

/* how many nodes the cost of a place has: those from the target word x on, with marks */
static uint32_t below(uint32_t x, uint8_t *seen) {
    if (!x || seen[x]) return 0;
    const uint32_t *r = costs + 8192 + 16 * (size_t)(x - 1);
    uint32_t n = 1;
    seen[x] = 1;
    for (uint32_t v = 0; v < features[r[0]]; v++) n += below(r[1 + v / 2] >> 16 * (v % 2) & 65535, seen);
    return n;
}

static uint32_t cost_nodes_of(size_t place) {
    static uint8_t seen[4097];
    memset(seen, 0, sizeof seen);
    return below(costs[32 + place], seen);
}

/* the rules that may choose */
static size_t rule_of(size_t n) { return n < 10 ? n : SELECTOR; }

static uint32_t call(int which, size_t a, size_t b) {
    if (which == SCALED) return lampgrotto_scale(costs, length, scratch, scratch_length, SCALED, a, FACTOR);
    if (which == PICKED)
        return lampgrotto_choose(costs, length, words, length, scratch, scratch_length, PICKED, rule_of(a), b / RANDOM, b % RANDOM);
    if (a == b) return 1;
    if (which == LESSER) return lampgrotto_smaller(costs, length, scratch, scratch_length, LESSER, a, b);
    if (which == ADDED) return lampgrotto_add(costs, length, scratch, scratch_length, ADDED, a, b);
    return lampgrotto_less(words, length, costs, length, scratch, scratch_length, BELOW, a, b);
}

/* nodes that are new: of two costs of which one is always below the other, no smaller and no larger has any */
static uint32_t new_costs(size_t place) { return (void)place, cost_nodes_in_use(); }
static uint32_t new_rules(size_t place) { return (void)place, nodes_in_use(); }

static const struct filled of_costs = {costs, cost_nodes_in_use, random_call, call, new_costs};
static const struct filled of_rules = {words, nodes_in_use, NULL, call, new_rules};

/* each result may take a sixth of the capacity more */
static void calls_of(size_t capacity, struct cost_calls *c) {
    size_t none, pair;
    largest_call(&of_costs, SCALED, RANDOM, 1, capacity / 2, &c->scale, &none);
    largest_call(&of_costs, PICKED, 11, RANDOM * RANDOM, 2 * capacity / 3, &c->rule, &pair);
    c->rule = rule_of(c->rule);
    c->pick_a = pair / RANDOM;
    c->pick_b = pair % RANDOM;
    largest_call(&of_costs, LESSER, RANDOM, RANDOM, 5 * capacity / 6, &c->smaller_a, &c->smaller_b);
    largest_call(&of_costs, ADDED, RANDOM, RANDOM, capacity, &c->add_a, &c->add_b);
    largest_call(&of_rules, BELOW, RANDOM, RANDOM, capacity, &c->less_a, &c->less_b);
}

void fill_costs(uint8_t size, size_t capacity, struct cost_calls *c) {
    memset(c, 0, sizeof *c);
    fill_third(size, capacity);
    for (int v = 0; v < size; v++) c->prices[v] = v;
    if (lampgrotto_cost_open(costs, length, features, 16, capacity)) abort();
    if (lampgrotto_price(costs, length, PRICES, c->price, c->prices, size)) abort();
    grow(&of_costs, 0, RANDOM, capacity / 4, capacity / 3);
    calls_of(capacity, c);
    fill_rest(capacity);
    grow(&of_costs, 10, 4, capacity - capacity / 32, capacity);
    for (size_t p = 0; p < 14; p++)
        if (cost_nodes_of(p) > cost_nodes_of(c->largest)) c->largest = p;
}
