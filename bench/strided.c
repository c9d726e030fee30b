/* Apply on rules whose nodes are numbered in strides: how often it works a pair out, by how the entry of a remembered result is chosen.
   The walk is made again here over the table's words, in the way before and in the library's; that its entries are those that the library
   leaves in its scratch is compared, so that its steps are the library's. Before that, how evenly operands in strides choose their entries.
   With any argument the library is timed alone, a line for each row, for bench/beside. */
#include "filling.h"
#include "lampgrotto.h"
#include "laying.h"
#include "timing.h"
#include <stdio.h>
#include <stdlib.h>
#include <string.h>

enum { LEVELS = 9, SMALLER = 1, ENTRY = 5, RESULT = 2 };

static uint8_t sheet[110000];

static void taken(uint32_t ending) {
    if (ending) exit(1);
}

/* ---- a rule that counts, modulo a number. Nine features move the count on by their value with a weight; the value `own` ends it in nodes of
   its own, as many as make the stride, and the other rule's own value in 0. So each pair of counts meets, and their smaller is small. */
struct counter {
    uint32_t modulus, stride, own;
    uint32_t at[LEVELS][64]; /* the node of a feature and a count, or 0 */
};
static uint32_t number; /* of the last own phrase */

static uint32_t own_nodes(uint32_t k, uint32_t count) {
    uint32_t branches[8] = {0}, one = count > 2, phrase = ++number;
    if (!count) return phrase;
    branches[7] = phrase;
    if (count > 1) branches[0] = own_nodes(k + 1, count - 1 - one);
    if (one) branches[1] = own_nodes(k + 1, 1);
    return laid_node(k, branches);
}

static uint32_t counting(struct counter *c, uint32_t k, uint32_t r) {
    uint32_t branches[8], weight = c->own ? (2 * k + 1) * (k + 3) : 3 * k + 1;
    if (k == LEVELS) return 1;
    if (c->at[k][r]) return c->at[k][r];
    for (uint32_t v = 0; v < 8; v++)
        branches[v] = v == c->own ? own_nodes(k + 1, c->stride - 1) : v % 7 == 0 ? 0 : counting(c, k + 1, (r + (v + 11) * weight) % c->modulus);
    return c->at[k][r] = laid_node(k, branches);
}

static void read_counter(size_t place, uint32_t modulus, uint32_t stride, uint32_t own) {
    struct counter c = {modulus, stride, own, {{0}}};
    laid_nodes = 0;
    size_t bytes = laid_sheet(sheet, 16, counting(&c, 0, 0));
    taken(lampgrotto_read(words, length, place, sheet, bytes));
}

/* ---- how the entry is chosen, of so many */
static uint32_t slots;

/* before: linear in the operands, which were nine, without the operator, and one entry */
static uint32_t linear(uint32_t k, uint32_t x, uint32_t y) {
    uint32_t h = ((k + x) * 2654435761u + y) * 2654435761u;
    for (int j = 2; j < 9; j++) h *= 2654435761u;
    return (h >> 12) % slots;
}

static uint32_t mix(uint32_t h, uint32_t x) {
    h += x;
    return (h ^ h >> 16) * 2654435761u;
}
static uint32_t mixed(uint32_t k, uint32_t x, uint32_t y) {
    return (uint32_t)((uint64_t)mix(mix(mix(SMALLER, y), x), k + 1) * slots >> 32);
}

static struct way {
    uint32_t (*choose)(uint32_t k, uint32_t x, uint32_t y);
    uint32_t second; /* 1 where the entry after the chosen one serves too */
} before = {linear, 0}, library = {mixed, 1};

/* ---- how even the choice is: operands in strides, 22 of each, and the entries that they choose, against those that chance would */
enum { OPERANDS = 22, STRIDES = 40 };

static double filled(const struct way *w, uint32_t a, uint32_t b) {
    static uint8_t taken_entry[SCRATCH];
    double none = 1;
    uint32_t count = 0;
    memset(taken_entry, 0, slots);
    for (uint32_t x = 0; x < OPERANDS; x++)
        for (uint32_t y = 0; y < OPERANDS; y++) {
            uint8_t *e = taken_entry + w->choose(0, 65536 + a * x, 67036 + b * y);
            none *= 1 - 1.0 / slots;
            count += !*e;
            *e = 1;
        }
    return count / (slots * (1 - none));
}

static void spread(const char *name, const struct way *w) {
    static const uint32_t sizes[4] = {512, 1489, 2978, 5957};
    printf("| %s |", name);
    for (int n = 0; n < 4; n++) {
        double least = 2, most = 0;
        slots = sizes[n];
        for (uint32_t a = 1; a <= STRIDES; a++)
            for (uint32_t b = 1; b <= STRIDES; b++) {
                double f = filled(w, a, b);
                if (f < least) least = f;
                if (f > most) most = f;
            }
        printf(" %.2f to %.2f |", least, most);
    }
    printf("\n");
}

/* ---- the walk again */
static uint32_t entries[SCRATCH / ENTRY][3]; /* the feature + 1, the operands */
static uint64_t steps;

static const uint32_t *record(uint32_t b) { return words + 8192 + 16 * (size_t)(b - 65536); }
static uint32_t top(uint32_t b) { return b < 65536 ? 16 : record(b)[0]; }
static uint32_t child(uint32_t b, uint32_t k, uint32_t v) { return top(b) == k ? record(b)[1 + v] : b; }

static void walk(const struct way *w, uint32_t x, uint32_t y) {
    uint32_t k = top(x) < top(y) ? top(x) : top(y);
    if (x == y || !x || !y || k == 16) return;
    uint32_t key[3] = {k + 1, x, y}, i = w->choose(k, x, y), j = (i + w->second) % slots;
    if (!memcmp(entries[i], key, sizeof key) || !memcmp(entries[j], key, sizeof key)) return;
    steps++;
    for (uint32_t v = 0; v < 8; v++) walk(w, child(x, k, v), child(y, k, v));
    memcpy(entries[entries[i][0] ? j : i], key, sizeof key);
}

static uint64_t steps_by(const struct way *w) {
    memset(entries, 0, sizeof entries);
    steps = 0;
    walk(w, words[32], words[33]);
    return steps;
}

/* how many pairs of nodes meet: the fewest steps that there can be */
static uint8_t met[4096][4096];

static uint64_t pairs(uint32_t x, uint32_t y) {
    uint32_t k = top(x) < top(y) ? top(x) : top(y);
    uint64_t n = 1;
    if (x < 65536 || y < 65536 || met[x - 65536][y - 65536]) return 0;
    met[x - 65536][y - 65536] = 1;
    for (uint32_t v = 0; v < 8; v++) n += pairs(child(x, k, v), child(y, k, v));
    return n;
}

/* ---- the rows */
static void applying(void) { taken(lampgrotto_apply(words, length, scratch, scratch_length, RESULT, SMALLER, 0, 1)); }

static void compare(void) {
    for (uint32_t i = 0; i < slots; i++)
        if (memcmp(entries[i], scratch + ENTRY * i, sizeof *entries)) exit(1);
}

static int alone;

/* so many entries has the part of the scratch that is used: it goes by the nodes in use before the call */
static uint32_t entries_used(void) {
    size_t wanted = 1024 + 64 * (size_t)nodes_in_use();
    return (uint32_t)((wanted < scratch_length ? wanted : scratch_length) / ENTRY);
}

/* the two rules, and their smaller */
static void lay(size_t capacity, uint32_t first, uint32_t second, uint32_t a, uint32_t b) {
    length = LAMPGROTTO_WORDS(capacity);
    scratch_length = 16 * capacity;
    memset(features, 8, sizeof features);
    taken(lampgrotto_open(words, length, features, 16, capacity));
    number = 1;
    read_counter(0, first, a, 0);
    read_counter(1, second, b, 7);
    applying();
}

static void row(size_t capacity, uint32_t first, uint32_t second, uint32_t a, uint32_t b) {
    lay(capacity, first, second, a, b);
    if (alone) {
        printf("apply\t%u and %u, %u and %u, %zu\t%.1f\n", a, b, first, second, capacity, best(applying));
        return;
    }
    slots = entries_used();
    uint64_t earlier = steps_by(&before), steps_now = steps_by(&library);
    applying();
    compare();
    memset(met, 0, sizeof met);
    printf("| %u and %u | %u and %u | %u | %u | %lu | %lu | %lu | %.0f |\n", a, b, first, second, nodes_in_use(), slots,
        (unsigned long)pairs(words[32], words[33]), (unsigned long)earlier, (unsigned long)steps_now, best(applying) / 1000);
    fflush(stdout);
}

static void spreads(void) {
    printf("| entries | 512 | 1489 | 2978 | 5957 |\n|---|---|---|---|---|\n");
    spread("before", &before);
    spread("now", &library);
    printf("\n| strides | counts | nodes in use | entries | pairs | steps before | steps | apply us |\n|---|---|---|---|---|---|---|---|\n");
}

int main(int words_given, char **given) {
    (void)given;
    alone = words_given > 1;
    if (!alone) spreads();
    row(4096, 20, 17, 1, 1);
    row(4096, 20, 17, 7, 13);
    row(4096, 20, 17, 11, 11);
    row(4096, 20, 17, 14, 13);
    row(4096, 30, 29, 3, 5);
    row(1024, 10, 13, 11, 1);
    row(1024, 20, 17, 1, 1);
    return 0;
}
