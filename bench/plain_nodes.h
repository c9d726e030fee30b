/* How the plain C programs keep their nodes: the rules' seen from the costs', which are walked beside them. */
#ifndef PLAIN_NODES_H
#define PLAIN_NODES_H
#include "plain.h"

struct node {
    struct node *next;
    uint64_t memo; /* a result of the call whose number is stamp */
    uint32_t stamp;
    unsigned feature;
    branch to[8];
};

/* the feature list; it is that of the words */
extern unsigned feature_count, feature_sizes[16];
void plain_features(const uint32_t *t);

static inline int is_phrase(branch b) { return b & 1; }
static inline uint32_t phrase_of(branch b) { return (uint32_t)(b >> 1); }
static inline branch phrase(uint32_t p) { return 2 * (branch)p + 1; }
static inline struct node *at(branch b) { return (struct node *)b; }
static inline unsigned feature_of(branch b) { return is_phrase(b) ? feature_count : at(b)->feature; }
static inline branch step(branch b, unsigned k, unsigned v) { return feature_of(b) == k ? at(b)->to[v] : b; }

/* the rule's branch that has these branches at feature k */
branch plain_make(unsigned k, const branch *to);
#endif
