/* A cost table filled with random costs beside a rule table of filling.h, and calls in both that find all their nodes there. */
#ifndef COST_FILLING_H
#define COST_FILLING_H
#include "filling.h"

enum { FACTOR = -3 };
/* places of the cost table; 0 to 5, 10 to 13 and AMOUNT are for random costs */
enum { SCALED = 6, PICKED, LESSER, ADDED, PRICES = 14, AMOUNT };
enum { BELOW = APPLIED }; /* a place of the rule table */

struct cost_calls {
    size_t scale;                /* FACTOR times this place is in SCALED */
    size_t rule, pick_a, pick_b; /* where this rule is not 0 the first, else the second, is in PICKED */
    size_t smaller_a, smaller_b; /* the smaller of these is in LESSER */
    size_t add_a, add_b;         /* the sum of these is in ADDED */
    size_t less_a, less_b;       /* the rule "first below second" is in BELOW */
    size_t largest;              /* the place with the most nodes */
    size_t price;                /* these prices of this feature are in PRICES */
    int64_t prices[8];
};

extern uint32_t costs[139264]; /* as many words as the rule table has are in use */

uint32_t cost_nodes_in_use(void);
/* Both tables of this capacity over 16 features of this size, nearly full. */
void fill_costs(uint8_t size, size_t capacity, struct cost_calls *c);
#endif
