/* CASE over more and more branches, of which a feature chooses all or two: the branches are sums of the values with random weights,
   modulo 3, so that no two have to do with each other. Only the chosen branch matters below that feature. With any argument a line for
   each CASE, for bench/beside. */
#include "check.h"
#include "filling.h"
#include "lampgrotto.h"
#include "plain.h"
#include "timing.h"
#include <stdio.h>
#include <stdlib.h>
#include <string.h>

enum { CAPACITY = 4096, MODULUS = 3, BRANCHES = 8, CHOICE = 8, LITERAL = 21, NUMBER, TERM, RESULT = 31 }; /* from CHOICE on places */

static uint32_t out[1], lent[1 << 18];
static size_t lent_length = 16 * CAPACITY;

static void taken(uint32_t ending) {
    if (ending) exit(1);
}

static void choose(size_t place, size_t selector, const uint32_t *branches, size_t count) {
    taken(lampgrotto_case(words, length, lent, lent_length, place, selector, branches, count));
}

/* the place gets (start + weight * the feature's value) modulo a number */
static void term(uint32_t place, size_t feature, uint32_t start, uint32_t weight, uint32_t modulus) {
    const uint32_t branches[2] = {place, NUMBER};
    taken(lampgrotto_constant(words, length, place, start));
    for (uint32_t v = 1; v < 8; v++) {
        taken(lampgrotto_literal(words, length, LITERAL, feature, 1u << v, out, 1));
        taken(lampgrotto_constant(words, length, NUMBER, (start + weight * v) % modulus));
        choose(place, LITERAL, branches, 2);
    }
}

static void weighted_sum(uint32_t place, uint32_t *seed) {
    taken(lampgrotto_constant(words, length, place, 0));
    for (size_t feature = 0; feature < 16; feature++) {
        uint32_t terms[MODULUS];
        *seed = *seed * 1103515245u + 12345u;
        for (uint32_t i = 0; i < MODULUS; i++) {
            terms[i] = TERM + i;
            term(terms[i], feature, i, 1 + (*seed >> 16) % (MODULUS - 1), MODULUS);
        }
        choose(place, place, terms, MODULUS);
    }
}

static uint32_t places[BRANCHES];
static branch roots[BRANCHES];
static size_t count; /* of branches */
static int alone;    /* nothing beside the library is timed */

static void library(void) { choose(RESULT, CHOICE, places, count); }
static void plain(void) { sink += plain_case(plain_root(CHOICE), roots, count); }
static void checking(void) { sink += table_is_sound(words, length); }

/* the value of the feature, modulo a number, chooses, and the plain program must choose as the library does */
static void measure(size_t feature, uint32_t chosen) {
    term(CHOICE, feature, 0, 1, chosen);
    library();
    plain_load(words);
    for (uint32_t j = 0; j < BRANCHES; j++) roots[j] = plain_root(j);
    if (plain_case(plain_root(CHOICE), roots, count) != plain_root(RESULT)) exit(1);
    double l = best(library) / 1000, p = alone ? 0 : best(plain) / 1000, t = alone ? 0 : best(checking) / 1000;
    if (alone) printf("CASE\t%zu: %u of %zu, %zu\t%.1f\n", feature, chosen, count, lent_length, l * 1000);
    else printf("| %zu | %zu | %u | %zu | %u | %.0f | %.0f | %.1f |\n", feature, count, chosen, lent_length, nodes_in_use(), l, p, l / (p + t));
    fflush(stdout);
    taken(lampgrotto_constant(words, length, RESULT, 0));
}

int main(int words_given, char **given) {
    uint32_t seed = 7;
    (void)given;
    alone = words_given > 1;
    length = LAMPGROTTO_WORDS(CAPACITY);
    memset(features, 8, sizeof features);
    taken(lampgrotto_open(words, length, features, 16, CAPACITY));
    for (uint32_t j = 0; j < BRANCHES; j++) weighted_sum(places[j] = j, &seed);
    if (!alone) {
        printf("| feature | branches | chosen | scratch words | nodes in use | CASE us | plain C us | times plain C with the table's test |\n");
        printf("|---|---|---|---|---|---|---|---|\n");
    }
    for (count = 2; count <= 8; count += 2) measure(0, (uint32_t)count);
    for (count = 2; count <= 5; count++) measure(15, (uint32_t)count);
    for (count = 3; count <= 6; count++) measure(15, 2);
    lent_length *= 4;
    count = 6;
    measure(15, 2);
    return 0;
}
