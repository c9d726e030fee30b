/* A writer of sheets that stores all settings: the nodes are the distinct rests, as a walk from the root finishes them. */
#include "sheet.h"
#include <string.h>

uint32_t nodes[NODES][9];
int node_count;

size_t settings_of(const struct list *f) {
    size_t all = 1;
    for (int k = 0; k < f->count; k++) all *= f->size[k];
    return all;
}

void setting_at(const struct list *f, size_t index, uint8_t *setting) {
    for (int k = f->count - 1; k >= 0; k--) {
        setting[k] = index % f->size[k];
        index /= f->size[k];
    }
}

/* the branch for features k and up, whose numbers are the given ones */
static uint32_t build(const struct list *f, int k, const uint16_t *numbers, size_t count) {
    if (k == f->count) return numbers[0];
    uint32_t node[9] = {k};
    size_t step = count / f->size[k];
    int alike = 1;
    for (int v = 0; v < f->size[k]; v++) {
        node[1 + v] = build(f, k + 1, numbers + v * step, step);
        if (node[1 + v] != node[1]) alike = 0;
    }
    if (alike) return node[1];
    for (int i = 0; i < node_count; i++)
        if (!memcmp(nodes[i], node, sizeof node)) return 65536 + i;
    memcpy(nodes[node_count], node, sizeof node);
    return 65536 + node_count++;
}

static void put(struct sheet *s, int byte) { s->bytes[s->length++] = byte; }

static void put_two(struct sheet *s, int n) {
    put(s, n >> 8);
    put(s, n & 255);
}

static void put_branch(struct sheet *s, uint32_t word) {
    put(s, word >> 16);
    put_two(s, word & 65535);
}

void lay_out(const struct list *f, uint32_t root, struct sheet *s) {
    s->length = 0;
    put_two(s, 1);
    put(s, 1);
    put_two(s, f->count);
    for (int k = 0; k < f->count; k++) put(s, f->size[k]);
    put_two(s, node_count);
    for (int i = 0; i < node_count; i++) {
        put(s, nodes[i][0]);
        for (int v = 0; v < f->size[nodes[i][0]]; v++) put_branch(s, nodes[i][1 + v]);
    }
    put_two(s, 1);
    put_branch(s, root);
}

void write_sheet(const struct list *f, const uint16_t *numbers, struct sheet *s) {
    node_count = 0;
    uint32_t root = build(f, 0, numbers, settings_of(f));
    lay_out(f, root, s);
}
