/* A reader of sheets, straight from docs/SCOPE.md: sections, nodes, no equal branches, no twins, the order of a walk. */
#include "sheet.h"
#include <string.h>

enum { NEWER = 65536 + 3, BAD_SHEET = 65536 + 4, BAD_ARGUMENT = 65536 + 6, MOST_NODES = 4096 };

struct branch {
    int is_node;
    int number; /* a phrase, or a node's index */
};

struct node {
    int feature;
    struct branch branch[8];
};

/* the bytes that are left, and whether some were missing or wrong so far */
static const uint8_t *next, *end;
static int wrong;

static struct list features;
static struct node node[MOST_NODES];
static int count;
static struct branch root;

static int byte(void) {
    if (next == end) {
        wrong = 1;
        return 0;
    }
    return *next++;
}

static int two(void) {
    int high = byte();
    return high * 256 + byte();
}

/* a branch to a phrase, or to a node before the limit whose feature is at least k */
static struct branch branch(int limit, int k) {
    int kind = byte();
    struct branch b = {kind == 1, two()};
    if (kind > 1) wrong = 1;
    if (b.is_node && (b.number >= limit || node[b.number].feature < k)) wrong = 1;
    return b;
}

static int same(struct branch a, struct branch b) { return a.is_node == b.is_node && a.number == b.number; }

static int twins(const struct node *a, const struct node *b) {
    if (a->feature != b->feature) return 0;
    for (int v = 0; v < features.size[a->feature]; v++)
        if (!same(a->branch[v], b->branch[v])) return 0;
    return 1;
}

static void read_features(void) {
    features.count = two();
    if (features.count < 1 || features.count > FEATURES) wrong = 1;
    for (int k = 0; !wrong && k < features.count; k++) {
        features.size[k] = byte();
        if (features.size[k] < 2 || features.size[k] > 8) wrong = 1;
    }
}

static void read_node(int i) {
    struct node *x = &node[i];
    x->feature = byte();
    if (x->feature >= features.count) wrong = 1;
    if (wrong) return;
    int alike = 1;
    for (int v = 0; v < features.size[x->feature]; v++) {
        x->branch[v] = branch(i, x->feature + 1);
        if (!same(x->branch[v], x->branch[0])) alike = 0;
    }
    if (alike) wrong = 1;
    for (int j = 0; !wrong && j < i; j++)
        if (twins(&node[j], x)) wrong = 1;
}

static void read_nodes(void) {
    count = two();
    if (count > MOST_NODES) wrong = 1;
    for (int i = 0; !wrong && i < count; i++) read_node(i);
}

/* how many nodes the walk has finished after this branch; -1 where one is out of turn */
static int walk(struct branch b, int finished) {
    if (finished < 0 || !b.is_node || b.number < finished) return finished;
    const struct node *x = &node[b.number];
    for (int v = 0; v < features.size[x->feature]; v++) finished = walk(x->branch[v], finished);
    return finished == b.number ? finished + 1 : -1;
}

static int good(void) {
    wrong = 0;
    if (two() != 1 || byte() != 1) return 0;
    read_features();
    if (!wrong) read_nodes();
    if (wrong || two() != 1) return 0;
    root = branch(count, 0);
    return !wrong && next == end && walk(root, 0) == count;
}

uint32_t expected(const uint8_t *bytes, size_t length, const uint8_t *setting, size_t setting_length) {
    next = bytes;
    end = bytes + length;
    if (length >= 3 && bytes[0] == 0 && bytes[1] == 1 && bytes[2] >= 2) return NEWER;
    if (!good()) return BAD_SHEET;
    if (setting_length != (size_t)features.count) return BAD_ARGUMENT;
    for (int k = 0; k < features.count; k++)
        if (setting[k] >= features.size[k]) return BAD_ARGUMENT;
    struct branch b = root;
    while (b.is_node) b = node[b.number].branch[setting[node[b.number].feature]];
    return b.number;
}
