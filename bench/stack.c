/* How much stack the calls take, on rules and costs whose nodes lie sixteen deep: how far below its caller's frame a call touches a
   thread's painted stack. */
#include "lampgrotto.h"
#include <pthread.h>
#include <stdio.h>
#include <stdlib.h>
#include <string.h>

enum { CAPACITY = 512, WORDS = 32 * CAPACITY + 8192, SCRATCH = 8192, LENT = 1 << 20, PAINT = 0xa5 };
enum { COST_CAPACITY = 1024, COST_WORDS = 32 * COST_CAPACITY + 8192 };
enum { FIRST, SECOND, LITERAL, RESULT }; /* places of both tables */
enum { UP = 4, DOWN };                   /* more of the cost table */
static uint32_t words[WORDS], cost_words[COST_WORDS], scratch[SCRATCH], out[17];
static uint8_t sheet[8192];
static size_t sheet_length;
static const uint8_t features[16] = {8, 8, 8, 8, 8, 8, 8, 8, 8, 8, 8, 8, 8, 8, 8, 8}, setting[16];
static const uint32_t branches[8] = {SECOND, FIRST, SECOND, FIRST, SECOND, FIRST, SECOND, FIRST};

static void expect(int holds, const char *what) {
    if (holds) return;
    printf("%s: wrong\n", what);
    exit(1);
}

/* the place gets 1 where an odd number of features have values of the set */
static void odd(size_t place, uint32_t bits) {
    expect(!lampgrotto_constant(words, WORDS, place, 0), "constant");
    for (size_t k = 0; k < 16; k++) {
        expect(!lampgrotto_literal(words, WORDS, LITERAL, k, bits, out, 1), "literal");
        expect(!lampgrotto_apply(words, WORDS, scratch, SCRATCH, place, 5, place, LITERAL), "apply");
    }
}

/* the place costs as many as there are features with the value */
static void many(size_t place, size_t value) {
    int64_t prices[8] = {0};
    prices[value] = 1;
    for (size_t k = 0; k < 16; k++) {
        expect(!lampgrotto_price(cost_words, COST_WORDS, LITERAL, k, prices, 8), "price");
        expect(!lampgrotto_add(cost_words, COST_WORDS, scratch, SCRATCH, place, place, LITERAL), "add");
    }
}

/* the first cost up to the end of the range, and its highest amount, 16, less it: no end of one meets that of the other */
static void far(void) {
    expect(!lampgrotto_cost_constant(cost_words, COST_WORDS, LITERAL, 1000000000 - 16), "constant");
    expect(!lampgrotto_add(cost_words, COST_WORDS, scratch, SCRATCH, UP, FIRST, LITERAL), "add");
    expect(!lampgrotto_cost_constant(cost_words, COST_WORDS, LITERAL, 16), "constant");
    expect(!lampgrotto_subtract(cost_words, COST_WORDS, scratch, SCRATCH, DOWN, LITERAL, FIRST), "subtract");
}

/* ---- each call as all that a thread does */
static uint8_t *frame;
static uint32_t ending;
#define THREAD(name, call) \
    static void *name(void *none) { \
        frame = __builtin_frame_address(0); \
        ending = call; \
        return none; \
    }
THREAD(phone, lampgrotto_look_up(sheet, sheet_length, setting, 16))
THREAD(phone_many, lampgrotto_look_up_all(sheet, sheet_length, setting, 16, out, 1))
THREAD(looking, lampgrotto_rule_look_up(words, WORDS, FIRST, setting, 16, out, 2))
THREAD(constant, lampgrotto_constant(words, WORDS, RESULT, 7))
THREAD(literal, lampgrotto_literal(words, WORDS, RESULT, 0, 5, out, 1))
THREAD(applying, lampgrotto_apply(words, WORDS, scratch, SCRATCH, RESULT, 1, FIRST, SECOND))
THREAD(choosing, lampgrotto_case(words, WORDS, scratch, SCRATCH, RESULT, FIRST, branches, 8))
THREAD(forgetting, lampgrotto_forget(words, WORDS, scratch, SCRATCH, RESULT, FIRST, 15))
THREAD(restricting, lampgrotto_restrict(words, WORDS, RESULT, FIRST, 15, 1))
THREAD(counting, lampgrotto_count(words, WORDS, FIRST, 1, out, 2))
THREAD(meeting, lampgrotto_next(words, WORDS, FIRST, 1, setting, 16, out, 16))
THREAD(tallying, lampgrotto_tally(words, WORDS, out, 1))
THREAD(writing, lampgrotto_write(words, WORDS, FIRST, sheet, sizeof sheet, out, 1))
THREAD(reading, lampgrotto_read(words, WORDS, RESULT, sheet, sheet_length))

/* the cost calls, with no scratch: then those that join keep their remembered results on the stack */
static const int64_t prices[8] = {0, 1, 2, 3, 4, 5, 6, 7};
THREAD(cost_looking, lampgrotto_cost_look_up(cost_words, COST_WORDS, FIRST, setting, 16, out, 2))
THREAD(cost_constant, lampgrotto_cost_constant(cost_words, COST_WORDS, RESULT, 7))
THREAD(pricing, lampgrotto_price(cost_words, COST_WORDS, RESULT, 15, prices, 8))
THREAD(adding, lampgrotto_add(cost_words, COST_WORDS, scratch, 0, RESULT, FIRST, SECOND))
THREAD(adding_lent, lampgrotto_add(cost_words, COST_WORDS, scratch, SCRATCH, RESULT, FIRST, SECOND))
THREAD(adding_far, lampgrotto_add(cost_words, COST_WORDS, scratch, 0, RESULT, UP, DOWN))
THREAD(smaller, lampgrotto_smaller(cost_words, COST_WORDS, scratch, 0, RESULT, FIRST, SECOND))
THREAD(scaling, lampgrotto_scale(cost_words, COST_WORDS, scratch, 0, RESULT, FIRST, -3))
THREAD(cost_tallying, lampgrotto_cost_tally(cost_words, COST_WORDS, out, 1))
THREAD(cost_choosing, lampgrotto_choose(cost_words, COST_WORDS, words, WORDS, scratch, 0, RESULT, FIRST, FIRST, SECOND))
THREAD(comparing, lampgrotto_less(words, WORDS, cost_words, COST_WORDS, scratch, 0, RESULT, FIRST, SECOND))
THREAD(lowest, lampgrotto_lowest(cost_words, COST_WORDS, words, WORDS, scratch, 0, FIRST, FIRST, out, 17))

static size_t stack_of(void *(*call)(void *)) {
    static uint8_t stack[LENT] __attribute__((aligned(4096)));
    pthread_attr_t attributes;
    pthread_t thread;
    uint8_t *low = stack;
    memset(stack, PAINT, sizeof stack);
    expect(!pthread_attr_init(&attributes) && !pthread_attr_setstack(&attributes, stack, sizeof stack), "stack");
    expect(!pthread_create(&thread, &attributes, call, NULL) && !pthread_join(thread, NULL), "thread");
    while (*low == PAINT) low++;
    return (size_t)(frame - low);
}

static void row(const char *name, void *(*call)(void *)) {
    size_t bytes = stack_of(call);
    expect(ending == 0, name);
    printf("| %s | %zu |\n", name, bytes);
}

static void cost_rows(void) {
    expect(!lampgrotto_cost_open(cost_words, COST_WORDS, features, 16, COST_CAPACITY), "open");
    many(FIRST, 7);
    many(SECOND, 6);
    far();
    row("cost look up", cost_looking);
    row("cost constant", cost_constant);
    row("price list", pricing);
    row("add, with scratch", adding_lent);
    row("add", adding);
    row("add, at the end of the range", adding_far);
    row("smaller", smaller);
    row("scale", scaling);
    row("cost tally", cost_tallying);
    row("choose", cost_choosing);
    row("less", comparing);
    row("lowest", lowest);
}

int main(void) {
    expect(!lampgrotto_open(words, WORDS, features, 16, CAPACITY), "open");
    odd(FIRST, 1);
    odd(SECOND, 2);
    printf("| call | bytes of stack |\n|---|---|\n");
    row("look up", looking);
    row("constant", constant);
    row("literal", literal);
    row("apply", applying);
    row("CASE", choosing);
    row("forget", forgetting);
    row("restrict", restricting);
    row("count", counting);
    row("next", meeting);
    row("tally", tallying);
    row("write", writing);
    sheet_length = out[0];
    row("read", reading);
    row("the phone's look up", phone);
    row("the phone's look up of many", phone_many);
    cost_rows();
    return 0;
}
