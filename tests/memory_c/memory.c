/* Where a call remembers changes nothing: in the scratch, in words of its own, or, in a large table, in the far records. The same calls with
   scratch of several lengths must leave the same words, and give what a program has that stores all settings. */
#include "lampgrotto.h"
#include <stdio.h>
#include <stdlib.h>
#include <string.h>

enum { FEATURES = 5, SETTINGS = 4 * 3 * 5 * 4 * 6, MOST_CAPACITY = 1024, WORDS = 8192 + 32 * MOST_CAPACITY, SCRATCH = 20000 };
enum { LENGTHS = 6, RULES = 8, COSTS = 5, LOOKS = 8 };

static const uint8_t features[FEATURES] = {4, 3, 5, 4, 6};
static const size_t lengths[LENGTHS] = {0, 700, 5632, 6143, 16383, SCRATCH};
static uint32_t rules[LENGTHS][WORDS], costs[LENGTHS][WORDS], scratch[SCRATCH], out[17];
static uint32_t numbers[RULES][SETTINGS]; /* what each rule place gives each setting, in order */
static int64_t amounts[COSTS][SETTINGS];  /* and each cost place */
static uint32_t new_numbers[SETTINGS];    /* what the place of a call gets where it is taken */
static int64_t new_amounts[SETTINGS];
static uint32_t seed;
static int calls, looks, full;

static uint32_t any(uint32_t below) {
    seed = seed * 1664525u + 1013904223u;
    return (seed >> 8) % below;
}

static void fail(const char *what, uint32_t ending) {
    printf("%s, call %d: %u\n", what, calls, (unsigned)ending);
    exit(1);
}

/* the value of feature f at setting s */
static uint32_t value_at(int s, int f) {
    for (int g = FEATURES - 1; g > f; g--) s /= features[g];
    return (uint32_t)s % features[f];
}

static void setting_of(int s, uint8_t *setting) {
    for (int f = 0; f < FEATURES; f++) setting[f] = (uint8_t)value_at(s, f);
}

/* the setting s with feature f at v */
static int with(int s, int f, uint32_t v) {
    int weight = 1;
    for (int g = FEATURES - 1; g > f; g--) weight *= features[g];
    return s + ((int)v - (int)value_at(s, f)) * weight;
}

/* scratch of one of the lengths, with any content */
static size_t lend(int i) {
    for (size_t j = 0; j < lengths[i]; j++) scratch[j] = any(5) ? 0 : any(70000);
    return lengths[i];
}

/* whether the new cost leaves its range */
static int leaves(void) {
    for (int s = 0; s < SETTINGS; s++)
        if (new_amounts[s] < -1000000000 || 1000000000 < new_amounts[s]) return 1;
    return 0;
}

/* how many features a place asks at setting s: those k such that, with the features below k fixed as in s, what is left depends on k */
static uint32_t asked(int cost, size_t place, int s) {
    uint32_t count = 0;
    for (int k = 0, span = SETTINGS; k < FEATURES; k++) {
        int first = s - s % span, depends = 0, part = span / features[k];
        for (int i = 0; i < span; i++) {
            int a = first + i, b = first + i % part;
            depends |= cost ? amounts[place][a] != amounts[place][b] : numbers[place][a] != numbers[place][b];
        }
        count += (uint32_t)depends;
        span = part;
    }
    return count;
}

/* ---- after a call with each length: all ended alike and left the same words; what is stored is the new where it was taken */
static void compare(const char *what, const uint32_t *endings, int cost, size_t place, size_t words) {
    uint32_t(*tables)[WORDS] = cost ? costs : rules;
    uint8_t setting[FEATURES];
    calls++;
    full += endings[0] == 9;
    if ((endings[0] == 8) != (cost && leaves())) fail(what, endings[0]);
    for (int i = 0; i < LENGTHS; i++) {
        if (endings[i] != endings[0] || (endings[i] && endings[i] != 8 && endings[i] != 9)) fail(what, endings[i]);
        if (memcmp(tables[i], tables[0], words * sizeof **tables)) fail("other words", (uint32_t)i);
    }
    if (!endings[0] && cost) memcpy(amounts[place], new_amounts, sizeof new_amounts);
    if (!endings[0] && !cost) memcpy(numbers[place], new_numbers, sizeof new_numbers);
    for (int n = 0; n < LOOKS; n++) {
        int s = (int)any(SETTINGS);
        setting_of(s, setting);
        if (cost) lampgrotto_cost_look_up(costs[0], words, place, setting, FEATURES, out, 2);
        else lampgrotto_rule_look_up(rules[0], words, place, setting, FEATURES, out, 2);
        if (cost ? (int32_t)out[0] != amounts[place][s] : out[0] != numbers[place][s]) fail("another answer", out[0]);
        if (out[1] != asked(cost, place, s)) fail("another number of features asked", out[1]);
        looks++;
    }
}

/* ---- rules */
static uint32_t applied(uint32_t o, uint32_t x, uint32_t y) {
    return o == 1 ? (x < y ? x : y) : o == 2 ? (x < y ? y : x) : o == 3 ? x == y : o == 4 ? x < y : x != y;
}

static void some_apply(size_t words) {
    uint32_t endings[LENGTHS], place = any(RULES), o = 1 + any(5), a = any(RULES), b = any(RULES);
    for (int i = 0; i < LENGTHS; i++) endings[i] = lampgrotto_apply(rules[i], words, scratch, lend(i), place, o, a, b);
    for (int s = 0; s < SETTINGS; s++) new_numbers[s] = applied(o, numbers[a][s], numbers[b][s]);
    compare("apply", endings, 0, place, words);
}

/* a literal, in a place that is not compared, chooses between a place and a number or another place */
static void some_case(size_t words) {
    uint32_t endings[LENGTHS], place = any(RULES), f = any(FEATURES), bits = any(1u << features[f]), number = any(9);
    uint32_t a = any(RULES), b = any(2) ? any(RULES) : RULES + 1, branches[2] = {a, b};
    for (int i = 0; i < LENGTHS; i++) {
        if (lampgrotto_literal(rules[i], words, RULES, f, bits, out, 1)) return;
        lampgrotto_constant(rules[i], words, RULES + 1, number);
        endings[i] = lampgrotto_case(rules[i], words, scratch, lend(i), place, RULES, branches, 2);
    }
    for (int s = 0; s < SETTINGS; s++) {
        uint32_t other = b < RULES ? numbers[b][s] : number;
        new_numbers[s] = bits >> value_at(s, (int)f) & 1 ? other : numbers[a][s];
    }
    compare("case", endings, 0, place, words);
}

/* what is left of two numbers: 0 gives way, two others that differ are 65,535 */
static uint32_t merged(uint32_t x, uint32_t y) { return !x || x == y ? y : !y ? x : 65535; }

static void some_forget(size_t words) {
    uint32_t endings[LENGTHS], place = any(RULES), from = any(RULES), f = any(FEATURES);
    for (int i = 0; i < LENGTHS; i++) endings[i] = lampgrotto_forget(rules[i], words, scratch, lend(i), place, from, f);
    for (int s = 0; s < SETTINGS; s++) {
        new_numbers[s] = 0;
        for (uint32_t v = 0; v < features[f]; v++) new_numbers[s] = merged(new_numbers[s], numbers[from][with(s, (int)f, v)]);
    }
    compare("forget", endings, 0, place, words);
}

/* ---- costs */
static int64_t joined(uint32_t o, int64_t x, int64_t y) {
    return o == 0 ? x + y : o == 1 ? x - y : o == 2 ? (x < y ? x : y) : (x < y ? y : x);
}

/* a place joined with another, or with a price list in a place that is not compared */
static void some_join(size_t words) {
    static uint32_t (*const call[4])(uint32_t *, size_t, uint32_t *, size_t, size_t, size_t, size_t) = {
        lampgrotto_add, lampgrotto_subtract, lampgrotto_smaller, lampgrotto_larger};
    uint32_t endings[LENGTHS], place = any(COSTS), o = any(4), a = any(COSTS), b = any(3) ? COSTS : any(COSTS), f = any(FEATURES);
    int64_t prices[8];
    for (int v = 0; v < 8; v++) prices[v] = (int64_t)any(90) - 40;
    for (int i = 0; i < LENGTHS; i++) {
        if (lampgrotto_price(costs[i], words, COSTS, f, prices, features[f])) return;
        endings[i] = call[o](costs[i], words, scratch, lend(i), place, a, b);
    }
    for (int s = 0; s < SETTINGS; s++) new_amounts[s] = joined(o, amounts[a][s], b < COSTS ? amounts[b][s] : prices[value_at(s, (int)f)]);
    compare("join", endings, 1, place, words);
}

static void some_choose(size_t words) {
    uint32_t endings[LENGTHS], place = any(COSTS), rule = any(RULES), a = any(COSTS), b = any(COSTS);
    for (int i = 0; i < LENGTHS; i++) endings[i] = lampgrotto_choose(costs[i], words, rules[i], words, scratch, lend(i), place, rule, a, b);
    for (int s = 0; s < SETTINGS; s++) new_amounts[s] = amounts[numbers[rule][s] ? a : b][s];
    compare("choose", endings, 1, place, words);
}

static void some_less(size_t words) {
    uint32_t endings[LENGTHS], place = any(RULES), a = any(COSTS), b = any(COSTS);
    for (int i = 0; i < LENGTHS; i++) endings[i] = lampgrotto_less(rules[i], words, costs[i], words, scratch, lend(i), place, a, b);
    for (int s = 0; s < SETTINGS; s++) new_numbers[s] = amounts[a][s] < amounts[b][s];
    compare("less", endings, 0, place, words);
}

/* the first of a place's lowest among the settings that a rule marks */
static void some_lowest(size_t words) {
    uint32_t place = any(COSTS), rule = any(RULES);
    uint8_t setting[FEATURES];
    int best = -1;
    for (int s = 0; s < SETTINGS; s++)
        if (numbers[rule][s] && (best < 0 || amounts[place][s] < amounts[place][best])) best = s;
    calls++;
    for (int i = 0; i < LENGTHS; i++) {
        uint32_t ending = lampgrotto_lowest(costs[i], words, rules[i], words, scratch, lend(i), place, rule, out, 17);
        if (ending != (best < 0 ? 11 : 0)) fail("lowest", ending);
        setting_of(best < 0 ? 0 : best, setting);
        if ((int32_t)out[0] != (best < 0 ? 0 : amounts[place][best])) fail("lowest, another cost", out[0]);
        for (int f = 0; f < FEATURES; f++)
            if (out[1 + f] != setting[f]) fail("lowest, another setting", (uint32_t)f);
    }
}

/* ---- any calls; those that make rules and costs larger come more often */
static void series(size_t capacity, int turns) {
    static void (*const call[12])(size_t) = {some_case,   some_case, some_case, some_apply, some_join,  some_join,
                                             some_choose, some_less, some_less, some_join,  some_lowest, some_forget};
    size_t words = LAMPGROTTO_WORDS(capacity);
    uint32_t most_rules = 0, most_costs = 0;
    memset(numbers, 0, sizeof numbers);
    memset(amounts, 0, sizeof amounts);
    for (int i = 0; i < LENGTHS; i++) {
        lampgrotto_open(rules[i], words, features, FEATURES, capacity);
        lampgrotto_cost_open(costs[i], words, features, FEATURES, capacity);
    }
    calls = looks = full = 0;
    for (int n = 0; n < turns; n++) {
        call[any(12)](words);
        lampgrotto_tally(rules[0], words, out, 1);
        if (most_rules < out[0]) most_rules = out[0];
        lampgrotto_cost_tally(costs[0], words, out, 1);
        if (most_costs < out[0]) most_costs = out[0];
    }
    printf("capacity %u: %d calls, each with %d lengths of scratch, %d of them NO ROOM; %d numbers looked up; up to %u rests of rules, %u of costs\n",
           (unsigned)capacity, calls, LENGTHS, full, looks, (unsigned)most_rules, (unsigned)most_costs);
}

int main(void) {
    seed = 7;
    series(300, 300);
    series(MOST_CAPACITY, 400);
    return 0;
}
