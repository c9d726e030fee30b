/* The calls of a cost table that is filled, and those on it and a rule table, each a job to be timed. No job adds a node, so that it can
   be done again and again. */
#ifndef COST_JOBS_H
#define COST_JOBS_H
#include "cost_filling.h"

extern struct cost_calls in;
extern uint32_t found[17];
extern uint8_t at_setting[16];

/* Both tables filled, with what the jobs need; the nodes of costs in use. */
uint32_t prepare_costs(uint8_t size, size_t capacity);

void library_cost_look_up(void);
void library_cost_constant(void);
void library_price(void);
void library_add(void);
void library_smaller(void);
void library_scale(void);
void library_choose(void);
void library_less(void);
void library_lowest(void);
#endif
