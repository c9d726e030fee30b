#include "cost_jobs.h"
#include "columns.h"
#include "lampgrotto.h"
#include "timing.h"

struct cost_calls in;
uint32_t found[17];
uint8_t at_setting[16];

uint32_t prepare_costs(uint8_t size, size_t capacity) {
    fill_costs(size, capacity, &in);
    expect(!lampgrotto_cost_constant(costs, length, AMOUNT, 7), "cost constant");
    for (int k = 0; k < 16; k++) at_setting[k] = (5 * k + 3) % size;
    return cost_nodes_in_use();
}

void library_cost_look_up(void) { sink += lampgrotto_cost_look_up(costs, length, in.largest, at_setting, 16, found, 2); }
void library_cost_constant(void) { sink += lampgrotto_cost_constant(costs, length, AMOUNT, 7); }
void library_price(void) { sink += lampgrotto_price(costs, length, PRICES, in.price, in.prices, features[0]); }
void library_add(void) { sink += lampgrotto_add(costs, length, scratch, scratch_length, ADDED, in.add_a, in.add_b); }
void library_smaller(void) { sink += lampgrotto_smaller(costs, length, scratch, scratch_length, LESSER, in.smaller_a, in.smaller_b); }
void library_scale(void) { sink += lampgrotto_scale(costs, length, scratch, scratch_length, SCALED, in.scale, FACTOR); }
void library_choose(void) {
    sink += lampgrotto_choose(costs, length, words, length, scratch, scratch_length, PICKED, in.rule, in.pick_a, in.pick_b);
}
void library_less(void) { sink += lampgrotto_less(words, length, costs, length, scratch, scratch_length, BELOW, in.less_a, in.less_b); }
void library_lowest(void) {
    sink += lampgrotto_lowest(costs, length, words, length, scratch, scratch_length, in.largest, BELOW, found, 17);
}
