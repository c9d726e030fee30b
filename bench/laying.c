#include "laying.h"
#include <string.h>

uint32_t laid_nodes;
static uint32_t nodes[4096][9]; /* the feature, then a word for each branch: a phrase, or 65,536 + a node */

uint32_t laid_node(uint32_t feature, const uint32_t *branches) {
    uint32_t node[9] = {feature};
    memcpy(node + 1, branches, 8 * sizeof *node);
    for (uint32_t i = 0; i < laid_nodes; i++)
        if (!memcmp(nodes[i], node, sizeof node)) return 65536 + i;
    memcpy(nodes[laid_nodes], node, sizeof node);
    return 65536 + laid_nodes++;
}

static uint8_t *put(uint8_t *at, uint32_t n, int bytes) {
    while (bytes--) *at++ = (uint8_t)(n >> 8 * bytes);
    return at;
}

size_t laid_sheet(uint8_t *sheet, int features, uint32_t root) {
    uint8_t *at = put(sheet, 1, 2);
    at = put(at, 1, 1);
    at = put(at, (uint32_t)features, 2);
    for (int k = 0; k < features; k++) at = put(at, 8, 1);
    at = put(at, laid_nodes, 2);
    for (uint32_t i = 0; i < laid_nodes; i++) {
        at = put(at, nodes[i][0], 1);
        for (int v = 0; v < 8; v++) at = put(at, nodes[i][1 + v], 3);
    }
    at = put(at, 1, 2);
    return (size_t)(put(at, root, 3) - sheet);
}
