/* The tests of bench/check.c beside the library's: filled tables of either kind are sound to both, and with one word changed to both or to
   neither. */
#include "check.h"
#include "columns.h"
#include "cost_filling.h"
#include "lampgrotto.h"
#include <stdio.h>

enum { CHANGES = 2000 }; /* of each table */

static int rules_damaged(void) {
    uint32_t out[1];
    return lampgrotto_tally(words, length, out, 1) == LAMPGROTTO_DAMAGED;
}

static int costs_damaged(void) {
    uint32_t out[1];
    return lampgrotto_cost_tally(costs, length, out, 1) == LAMPGROTTO_DAMAGED;
}

/* a word of the table: of the front, a chain head, of a record in use, or any */
static size_t some_word(const uint32_t *t) {
    uint32_t of_records = 16 * t[19], kind = chance(5);
    if (kind == 0) return chance(64);
    if (kind == 1) return 4096 + chance(4096);
    if (kind == 2) return chance((uint32_t)length);
    return 8192 + chance(of_records ? of_records : 1);
}

static uint32_t changed(const uint32_t *t, uint32_t word) {
    uint32_t kind = chance(4);
    if (kind == 0) return word + 1;
    if (kind == 1) return word - 1 - chance(3);
    if (kind == 2) return word ^ 1u << chance(32);
    return t[some_word(t)];
}

/* how many changes of one word leave the table sound */
static uint32_t tried(uint32_t *t, int (*is_sound)(const uint32_t *, size_t), int (*is_damaged)(void)) {
    uint32_t still = 0;
    expect(is_sound(t, length) && !is_damaged(), "a filled table");
    for (int change = 0; change < CHANGES; change++) {
        size_t j = some_word(t);
        uint32_t before = t[j];
        t[j] = changed(t, before);
        int sound = is_sound(t, length);
        expect(sound != is_damaged(), "a changed table");
        still += (uint32_t)(sound && t[j] != before);
        t[j] = before;
    }
    return still;
}

int main(void) {
    static struct cost_calls calls;
    uint32_t rules_left = 0, costs_left = 0;
    for (uint8_t size = 2; size <= 8; size += 3)
        for (int c = 0; c < 4; c++) {
            fill_costs(size, capacities[c], &calls);
            rules_left += tried(words, table_is_sound, rules_damaged);
            costs_left += tried(costs, cost_table_is_sound, costs_damaged);
        }
    printf("Of %d tables of each kind with one word changed %u of rules and %u of costs are sound, to C and to the library alike.\n",
           12 * CHANGES, rules_left, costs_left);
    return 0;
}
