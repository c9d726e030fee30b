/* The phone's lookup in a sheet of several sizes: how it grows, and how it compares with C that does the same with and without the
   sheet's check; and twenty lookups, one by one and at once. With any argument a line for each size, for bench/beside. */
#include "check.h"
#include "lampgrotto.h"
#include "laying.h"
#include "plain.h"
#include "timing.h"
#include <stdio.h>
#include <stdlib.h>
#include <string.h>

/* ---- a sheet of exactly so many nodes: features of size 8, all different above the last one, which has some nodes again and again */
static uint32_t seed;
static uint8_t sheet[110000];
static size_t length;
static int features;

static uint32_t build(int k, uint32_t *index, uint32_t leaves) {
    uint32_t branches[8];
    if (k + 1 < features) {
        for (int v = 0; v < 8; v++) branches[v] = build(k + 1, index, leaves);
        return laid_node((uint32_t)k, branches);
    }
    seed = seed * 1103515245u + 12345u;
    uint32_t x = 1 + (*index < leaves ? *index : (seed >> 8) % leaves);
    ++*index;
    for (int v = 0; v < 8; v++) branches[v] = v == 0 ? x : v == 1 ? x >> 3 : 5;
    return laid_node((uint32_t)k, branches);
}

static void make_sheet(int count, uint32_t leaves) {
    uint32_t index = 0;
    features = count;
    laid_nodes = 0;
    seed = 1;
    length = laid_sheet(sheet, count, build(0, &index, leaves));
}

/* ---- the times */
static const uint8_t setting[5] = {6, 3, 2, 1, 0};
static size_t lent; /* as many bytes as the lookup is told of */

static void looking(void) { sink += lampgrotto_look_up(sheet, lent, setting, (size_t)features); }
static void plain(void) { sink += plain_sheet_look_up(sheet, setting); }
static void checked(void) { sink += sheet_is_good(sheet, length) ? plain_sheet_look_up(sheet, setting) : 0; }
static void passing(void) {
    uint64_t sum = 0;
    for (size_t p = 0; p < length; p++) sum += sheet[p];
    sink += sum;
}

/* ---- twenty settings; an archive that has no look up of many, for bench/beside, takes them one by one */
#pragma weak lampgrotto_look_up_all
enum { MANY = 20 };
static uint8_t rows[MANY * 5];
static uint32_t numbers[MANY];

static void make_rows(void) {
    for (int p = 0; p < MANY * features; p++) rows[p] = (uint8_t)((p * 5 + p / features) % 8);
}

static void one_by_one(void) {
    for (int i = 0; i < MANY; i++) numbers[i] = lampgrotto_look_up(sheet, length, rows + i * features, (size_t)features);
    sink += numbers[MANY - 1];
}

static void at_once(void) {
    if (!lampgrotto_look_up_all) return one_by_one();
    sink += lampgrotto_look_up_all(sheet, length, rows, (size_t)(MANY * features), numbers, MANY);
    sink += numbers[MANY - 1];
}

/* both must give what C gives that trusts the sheet */
static void test_rows(void (*look)(void)) {
    memset(numbers, 0, sizeof numbers);
    look();
    for (int i = 0; i < MANY; i++)
        if (numbers[i] != plain_sheet_look_up(sheet, rows + i * features)) exit(1);
}

/* the five sheets */
static const int counts[5] = {3, 3, 4, 5, 5};
static const uint32_t leaves[5] = {7, 55, 183, 439, 3511};

static void twenty(int alone) {
    if (!alone) printf("\n| nodes | twenty look ups one by one us | at once us | times |\n|---|---|---|---|\n");
    for (int c = 0; c < 5; c++) {
        make_sheet(counts[c], leaves[c]);
        make_rows();
        test_rows(one_by_one);
        test_rows(at_once);
        double o = best(one_by_one), a = best(at_once);
        if (alone) printf("twenty, one by one\t%u\t%.1f\ntwenty, at once\t%u\t%.1f\n", laid_nodes, o, laid_nodes, a);
        if (!alone) printf("| %u | %.1f | %.1f | %.2f |\n", laid_nodes, o / 1000, a / 1000, a / o);
    }
}

static void sizes(int alone) {
    if (!alone) printf("| nodes | bytes | sum of the bytes us | look up us | times the sum | times C with the check | times C without |\n");
    if (!alone) printf("|---|---|---|---|---|---|---|\n");
    for (int c = 0; c < 5; c++) {
        make_sheet(counts[c], leaves[c]);
        lent = length;
        if (lampgrotto_look_up(sheet, length, setting, (size_t)features) != plain_sheet_look_up(sheet, setting) || !sheet_is_good(sheet, length))
            exit(1);
        if (alone) {
            printf("look up in a sheet\t%u\t%.1f\n", laid_nodes, best(looking));
            continue;
        }
        double l = best(looking), p = best(plain), k = best(checked), s = best(passing);
        printf("| %u | %zu | %.1f | %.1f | %.1f | %.1f | %.0f |\n", laid_nodes, length, s / 1000, l / 1000, l / s, l / k, l / p);
    }
}

/* how far the check goes is told by what is spoiled */
static void phases(void) {
    static const char *upto[4] = {"where each node begins", "and each node", "and twins", "and the walk and the lookup"};
    uint8_t *root = sheet + length - 3, kept[3];
    double s = best(passing);
    memcpy(kept, root, 3);
    printf("\n| the largest sheet, up to | times the sum |\n|---|---|\n");
    for (int phase = 0; phase < 4; phase++) {
        lent = length + (phase == 0);
        if (phase == 1) root[0] = 2;
        if (phase == 2) root[1] = root[2] = 0;
        printf("| %s | %.1f |\n", upto[phase], best(looking) / s);
        memcpy(root, kept, 3);
    }
}

int main(int words_given, char **given) {
    (void)given;
    sizes(words_given > 1);
    if (words_given == 1) phases();
    twenty(words_given > 1);
    return 0;
}
