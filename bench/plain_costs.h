/* The same costs as a C program keeps them that trusts its memory: nodes from malloc, pointers, the lowest and the highest sum kept in
   each, no checks, nothing collected. Rules are those of plain.h, over the same features. */
#ifndef PLAIN_COSTS_H
#define PLAIN_COSTS_H
#include "plain.h"

struct cost_node;
typedef struct {
    struct cost_node *to; /* the one end, or a node whose branch 0 adds 0 */
    int64_t adds;
} cost;

/* The diagrams of a cost table's words, made anew; the cost of a place of the last words that were loaded. */
void plain_costs_load(const uint32_t *t);
cost plain_cost_root(size_t place);

cost plain_cost_constant(int64_t amount);
int64_t plain_cost_look_up(cost c, const uint8_t *setting);
uint32_t plain_cost_asked(cost c, const uint8_t *setting); /* how many features that asks */
/* Whether the result lies in the range of costs at every setting; if not it is no cost. */
int plain_add(cost a, cost b, cost *result);
int plain_scale(cost a, int64_t factor, cost *result);
cost plain_smaller(cost a, cost b);
cost plain_choose(branch rule, cost a, cost b);
branch plain_less(cost a, cost b);
/* Whether the rule is other than 0 at some setting; the lowest cost there, and the first setting that has it. */
int plain_lowest(cost a, branch rule, int64_t *low, uint8_t *setting);
#endif
