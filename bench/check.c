#include "check.h"
#include <string.h>

/* ---- a table */
static int zeros(const uint32_t *t, size_t from, size_t to) {
    uint32_t bits = 0;
    for (size_t j = from; j < to; j++) bits |= t[j];
    return bits == 0;
}

static int header_is_good(const uint32_t *t, size_t length, uint32_t kind) {
    if (length < 8192 || t[0] != kind || t[1] < 1 || t[1] > 4096 || length < 8192 + 32 * (size_t)t[1]) return 0;
    if (t[2] < 1 || t[2] > 16 || t[19] > t[1]) return 0;
    for (uint32_t k = 0; k < t[2]; k++)
        if (t[3 + k] < 2 || t[3 + k] > 8) return 0;
    return zeros(t, 3 + t[2], 19) && zeros(t, 20, 32) && zeros(t, 64, 4096) &&
           zeros(t, 8192 + 16 * (size_t)t[19], 8192 + 32 * (size_t)t[1]);
}

static const uint32_t *record(const uint32_t *t, uint32_t i) { return t + 8192 + 16 * (size_t)i; }

static int node_is_good(const uint32_t *t, uint32_t i) {
    const uint32_t *r = record(t, i);
    if (r[0] >= t[2]) return 0;
    uint32_t size = t[3 + r[0]], alike = 1;
    for (uint32_t v = 0; v < size; v++) {
        uint32_t b = r[1 + v];
        if (b >= 65536 + i || (b >= 65536 && record(t, b - 65536)[0] <= r[0])) return 0;
        alike &= b == r[1];
    }
    for (uint32_t v = size; v < 12; v++)
        if (r[1 + v]) return 0;
    return !alike && !r[14] && !r[15];
}

static int chains_are_good(const uint32_t *t) {
    static uint32_t heads[4096];
    memset(heads, 0, sizeof heads);
    for (uint32_t i = 0; i < t[19]; i++) {
        const uint32_t *r = record(t, i);
        uint32_t h = r[0];
        for (int v = 0; v < 12; v++) h = h * 2654435761u + r[1 + v];
        h >>= 20;
        if (r[13] != heads[h]) return 0;
        for (uint32_t j = heads[h]; j; j = record(t, j - 1)[13])
            if (!memcmp(record(t, j - 1), r, 13 * sizeof *r)) return 0;
        heads[h] = i + 1;
    }
    return !memcmp(heads, t + 4096, sizeof heads);
}

/* the walk meets each node first when it is the next */
static int walk(const uint32_t *t, uint32_t b, uint32_t *met) {
    if (b < 65536 + *met) return 1;
    const uint32_t *r = record(t, b - 65536);
    for (uint32_t v = 0; v < t[3 + r[0]]; v++)
        if (!walk(t, r[1 + v], met)) return 0;
    return b == 65536 + (*met)++;
}

int table_is_sound(const uint32_t *t, size_t length) {
    if (!header_is_good(t, length, 1)) return 0;
    for (uint32_t i = 0; i < t[19]; i++)
        if (!node_is_good(t, i)) return 0;
    if (!chains_are_good(t)) return 0;
    uint32_t met = 0;
    for (int p = 0; p < 32; p++)
        if (t[32 + p] >= 65536 + t[19] || !walk(t, t[32 + p], &met)) return 0;
    return met == t[19];
}

/* ---- a cost table: target words are halves of words, 0 for the end; a word stands for the integer that is ZERO less */
static const uint32_t ZERO = 2147483648u;

static uint32_t target(const uint32_t *r, uint32_t v) { return r[1 + v / 2] >> 16 * (v % 2) & 65535; }
static uint64_t low_of(const uint32_t *t, uint32_t x) { return x ? record(t, x - 1)[14] : ZERO; }
static uint64_t high_of(const uint32_t *t, uint32_t x) { return x ? record(t, x - 1)[15] : ZERO; }

/* the lowest and the highest sum of a node's branches are those that it keeps, within ±2,000,000,000 */
static int cost_node_is_good(const uint32_t *t, uint32_t i) {
    const uint32_t *r = record(t, i);
    if (r[0] >= t[2] || r[5] != ZERO) return 0;
    uint32_t size = t[3 + r[0]], first = target(r, 0), differ = 0;
    uint64_t low = UINT64_MAX, high = 0;
    for (uint32_t v = 0; v < size; v++) {
        uint32_t x = target(r, v), adds = r[5 + v];
        if (x > i || (x && record(t, x - 1)[0] <= r[0]) || adds - 147483648 > 4000000000) return 0;
        differ |= (x ^ first) | (adds ^ ZERO);
        uint64_t l = adds + low_of(t, x), h = adds + high_of(t, x);
        if (l < low) low = l;
        if (h > high) high = h;
    }
    for (uint32_t v = size; v < 8; v++)
        if (target(r, v) || r[5 + v]) return 0;
    return differ && low >= 2294967296 && high <= 6294967296 && r[14] == low - ZERO && r[15] == high - ZERO;
}

static int cost_walk(const uint32_t *t, uint32_t x, uint32_t *met) {
    if (x <= *met) return 1;
    const uint32_t *r = record(t, x - 1);
    for (uint32_t v = 0; v < t[3 + r[0]]; v++)
        if (!cost_walk(t, target(r, v), met)) return 0;
    return x == ++*met;
}

int cost_table_is_sound(const uint32_t *t, size_t length) {
    if (!header_is_good(t, length, 2)) return 0;
    for (uint32_t i = 0; i < t[19]; i++)
        if (!cost_node_is_good(t, i)) return 0;
    if (!chains_are_good(t)) return 0;
    uint32_t met = 0;
    for (int p = 0; p < 16; p++) {
        uint32_t x = t[32 + p];
        if (x > t[19] || !cost_walk(t, x, &met)) return 0;
        if (t[48 + p] + low_of(t, x) < 3294967296 || t[48 + p] + high_of(t, x) > 5294967296) return 0;
    }
    return met == t[19];
}

/* ---- a sheet */
static uint32_t two(const uint8_t *p) { return p[0] * 256u + p[1]; }
static uint32_t branch_of(const uint8_t *p) { return p[0] * 65536u + two(p + 1); }

struct sheet {
    const uint8_t *sizes, *nodes[4096], *root;
    uint32_t features, count;
};

static int sections(const uint8_t *s, size_t length, struct sheet *r) {
    const uint8_t *end = s + length;
    if (length < 5 || two(s) != 1 || s[2] != 1) return 0;
    r->features = two(s + 3);
    r->sizes = s + 5;
    if (r->features < 1 || r->features > 16 || length < 7 + (size_t)r->features) return 0;
    for (uint32_t k = 0; k < r->features; k++)
        if (r->sizes[k] < 2 || r->sizes[k] > 8) return 0;
    const uint8_t *p = r->sizes + r->features;
    r->count = two(p);
    p += 2;
    if (r->count > 4096) return 0;
    for (uint32_t i = 0; i < r->count; i++) {
        if (p == end || p[0] >= r->features || end - p < 1 + 3 * r->sizes[p[0]]) return 0;
        r->nodes[i] = p;
        p += 1 + 3 * r->sizes[p[0]];
    }
    r->root = p + 2;
    return end - p == 5 && two(p) == 1 && branch_of(r->root) < 65536 + r->count;
}

static int nodes_are_good(const struct sheet *r) {
    static uint32_t heads[4096], links[4096];
    memset(heads, 0, sizeof heads);
    for (uint32_t i = 0; i < r->count; i++) {
        const uint8_t *n = r->nodes[i];
        uint32_t size = r->sizes[n[0]], h = n[0], alike = 1;
        for (uint32_t v = 0; v < size; v++) {
            uint32_t b = branch_of(n + 1 + 3 * v);
            if (b >= 65536 + i || (b >= 65536 && r->nodes[b - 65536][0] <= n[0])) return 0;
            alike &= b == branch_of(n + 1);
            h = h * 2654435761u + b;
        }
        if (alike) return 0;
        h >>= 20;
        for (uint32_t j = heads[h]; j; j = links[j - 1])
            if (!memcmp(r->nodes[j - 1], n, 1 + 3 * size)) return 0;
        links[i] = heads[h];
        heads[h] = i + 1;
    }
    return 1;
}

static int sheet_walk(const struct sheet *r, uint32_t b, uint32_t *met) {
    if (b < 65536 + *met) return 1;
    const uint8_t *n = r->nodes[b - 65536];
    for (uint32_t v = 0; v < r->sizes[n[0]]; v++)
        if (!sheet_walk(r, branch_of(n + 1 + 3 * v), met)) return 0;
    return b == 65536 + (*met)++;
}

int sheet_is_good(const uint8_t *s, size_t length) {
    static struct sheet r;
    uint32_t met = 0;
    return sections(s, length, &r) && nodes_are_good(&r) && sheet_walk(&r, branch_of(r.root), &met) && met == r.count;
}
