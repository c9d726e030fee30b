#include "rule_jobs.h"
#include "columns.h"
#include "lampgrotto.h"
#include "timing.h"

struct calls at;
uint32_t out[17];
uint8_t setting[16], sheet[102428];
size_t sheet_length;

uint32_t prepare(uint8_t size, size_t capacity) {
    uint32_t nodes = fill(size, capacity, &at);
    expect(!lampgrotto_constant(words, length, CONSTANT, 7), "constant");
    for (int k = 0; k < 16; k++) setting[k] = (5 * k + 3) % size;
    expect(!lampgrotto_write(words, length, at.largest, sheet, sizeof sheet, out, 1), "write");
    sheet_length = out[0];
    expect(!lampgrotto_read(words, length, READ, sheet, sheet_length), "read");
    return nodes;
}

void library_look_up(void) { sink += lampgrotto_rule_look_up(words, length, at.largest, setting, 16, out, 2); }
void library_constant(void) { sink += lampgrotto_constant(words, length, CONSTANT, 7); }
void library_literal(void) { sink += lampgrotto_literal(words, length, SELECTOR, 7, 2, out, 1); }
void library_apply(void) { sink += lampgrotto_apply(words, length, scratch, scratch_length, APPLIED, DIFFER, at.apply_a, at.apply_b); }
void library_case(void) {
    uint32_t branches[2] = {(uint32_t)at.case_a, (uint32_t)at.case_b};
    sink += lampgrotto_case(words, length, scratch, scratch_length, CHOSEN, SELECTOR, branches, 2);
}
void library_forget(void) { sink += lampgrotto_forget(words, length, scratch, scratch_length, FORGOTTEN, at.forget, at.forget_f); }
void library_restrict(void) { sink += lampgrotto_restrict(words, length, RESTRICTED, at.restrict_, at.restrict_f, 1); }
void library_count(void) { sink += lampgrotto_count(words, length, at.largest, 1, out, 2); }
void library_next(void) { sink += lampgrotto_next(words, length, at.largest, 1, setting, 16, out, 16); }
void library_write(void) { sink += lampgrotto_write(words, length, at.largest, sheet, sizeof sheet, out, 1); }
void library_read(void) { sink += lampgrotto_read(words, length, READ, sheet, sheet_length); }
