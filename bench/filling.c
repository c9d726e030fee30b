#include "filling.h"
#include "lampgrotto.h"
#include <stdio.h>
#include <stdlib.h>
#include <string.h>

uint32_t words[139264], scratch[SCRATCH];
size_t length, scratch_length;
uint8_t features[16];
static uint32_t before[139264];
static uint32_t seed;

uint32_t chance(uint32_t n) {
    seed ^= seed << 13;
    seed ^= seed >> 17;
    seed ^= seed << 5;
    return seed % n;
}

uint32_t nodes_in_use(void) {
    uint32_t out[1];
    if (lampgrotto_tally(words, length, out, 1)) abort();
    return out[0];
}

static void save(const uint32_t *t) { memcpy(before, t, length * sizeof *t); }
static void restore(uint32_t *t) { memcpy(t, before, length * sizeof *t); }

/* a place joined with a literal, and with another place */
static void random_call(size_t first, size_t count) {
    uint32_t out[1], all = (1u << features[0]) - 1;
    size_t place = first + chance(count);
    uint32_t bits = 1 + chance(all - 1);
    lampgrotto_literal(words, length, 30, chance(16), bits, out, 1);
    size_t other = first + chance(count); /* a line for each, as the arguments of a call have no order */
    lampgrotto_apply(words, length, scratch, scratch_length, place, 1 + chance(2), other, 30);
    lampgrotto_apply(words, length, scratch, scratch_length, place, DIFFER, place, chance(2) ? 30 : first + chance(count));
}

void grow(const struct filled *f, size_t first, size_t count, uint32_t least, uint32_t most) {
    for (int turn = 0; turn < 3000 && f->in_use() < least; turn++) {
        save(f->words);
        f->random_call(first, count);
        if (f->in_use() > most) restore(f->words);
    }
}

void largest_call(const struct filled *f, int which, size_t firsts, size_t seconds, size_t most, size_t *a, size_t *b) {
    uint32_t found = 0;
    save(f->words);
    for (size_t x = 0; x < firsts; x++)
        for (size_t y = 0; y < seconds; y++) {
            if (!f->call(which, x, y) && f->in_use() <= most && f->worth((size_t)which) >= found) {
                found = f->worth((size_t)which);
                *a = x;
                *b = y;
            }
            restore(f->words);
        }
    if (f->call(which, *a, *b)) abort();
}

static void open_table(uint8_t size, size_t capacity) {
    seed = 12345;
    length = LAMPGROTTO_WORDS(capacity);
    scratch_length = 16 * capacity < SCRATCH ? 16 * capacity : SCRATCH;
    memset(features, size, sizeof features);
    if (lampgrotto_open(words, length, features, 16, capacity)) abort();
}

/* how many nodes the rule of a place has: those below the root word b, with marks */
static uint32_t below(uint32_t b, uint8_t *seen) {
    if (b < 65536 || seen[b - 65536]) return 0;
    const uint32_t *r = words + 8192 + 16 * (size_t)(b - 65536);
    uint32_t n = 1;
    seen[b - 65536] = 1;
    for (uint32_t v = 0; v < features[r[0]]; v++) n += below(r[1 + v], seen);
    return n;
}

uint32_t nodes_of(size_t place) {
    static uint8_t seen[4096];
    memset(seen, 0, sizeof seen);
    return below(words[32 + place], seen);
}

static uint32_t call(int which, size_t a, size_t b) {
    uint32_t branches[2] = {(uint32_t)a, (uint32_t)b};
    if (which == FORGOTTEN) return lampgrotto_forget(words, length, scratch, scratch_length, FORGOTTEN, a, b);
    if (which == RESTRICTED) return lampgrotto_restrict(words, length, RESTRICTED, a, b, 1);
    if (a == b) return 1;
    if (which == APPLIED) return lampgrotto_apply(words, length, scratch, scratch_length, APPLIED, DIFFER, a, b);
    return lampgrotto_case(words, length, scratch, scratch_length, CHOSEN, SELECTOR, branches, 2);
}

static const struct filled rules = {words, nodes_in_use, random_call, call, nodes_of};

void fill_third(uint8_t size, size_t capacity) {
    uint32_t out[1];
    open_table(size, capacity);
    lampgrotto_literal(words, length, SELECTOR, 7, 2, out, 1);
    grow(&rules, 0, 10, capacity / 4, capacity / 3);
}

void fill_rest(size_t capacity) { grow(&rules, 10, 13, capacity - capacity / 32, capacity); }

uint32_t fill(uint8_t size, size_t capacity, struct calls *c) {
    memset(c, 0, sizeof *c);
    fill_third(size, capacity);
    largest_call(&rules, RESTRICTED, 10, 16, capacity, &c->restrict_, &c->restrict_f);
    largest_call(&rules, FORGOTTEN, 10, 16, capacity, &c->forget, &c->forget_f);
    largest_call(&rules, CHOSEN, 10, 10, capacity, &c->case_a, &c->case_b);
    largest_call(&rules, APPLIED, 10, 10, capacity, &c->apply_a, &c->apply_b);
    fill_rest(capacity);
    for (size_t p = 0; p < 28; p++)
        if (nodes_of(p) > nodes_of(c->largest)) c->largest = p;
    return nodes_in_use();
}

uint32_t fill_up(uint8_t size, size_t capacity) {
    open_table(size, capacity);
    grow(&rules, 0, 30, capacity - capacity / 64, capacity);
    return nodes_in_use();
}
