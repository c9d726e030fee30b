/* Rules made, joined and read from C: examples over a feature of size 2 and one of size 3, the scope's and one of forgetting, with what is refused.
   It writes what it gets, call by call; the file expected has what it must get. */
#include "endings.h"
#include "lampgrotto.h"
#include <stdio.h>
#include <string.h>

enum { CAPACITY = 8, WORDS = 8192 + 32 * CAPACITY, SCRATCH = 256, PAST = 3 };
enum { SMALLER = 1, LARGER, EQUAL, LESS, DIFFER };
enum { A, B, C, SEVEN, RESULT, OTHER, TWELVE, FORTY }; /* places of the table */

static const uint8_t features[2] = {2, 3};
static uint32_t table[WORDS + PAST], scratch[SCRATCH], out[17];

/* ---- what is written */

/* the ending, then the first n result words, which held something else before */
static void say_results(const char *what, uint32_t ending, int n) {
    say(what, ending);
    for (int i = 0; i < n; i++) printf(" %u", (unsigned)out[i]);
    printf("\n");
    memset(out, 255, sizeof out);
}

/* the number that a place gives each setting, and how many features it asks there: the stepper goes through them */
static void say_rule(const char *name, size_t place) {
    uint8_t setting[2] = {0, 0};
    uint32_t asked[6], n = 0;
    printf("%s =", name);
    do {
        lampgrotto_rule_look_up(table, WORDS, place, setting, 2, out, 2);
        printf(" %u", (unsigned)out[0]);
        asked[n++] = out[1];
        lampgrotto_step(features, 2, setting, 2, out, 17);
        setting[0] = (uint8_t)out[1];
        setting[1] = (uint8_t)out[2];
    } while (!out[0] && n < 6);
    printf("; asked");
    for (uint32_t i = 0; i < n; i++) printf(" %u", (unsigned)asked[i]);
    lampgrotto_tally(table, WORDS, out, 1);
    printf("; nodes in use %u\n", (unsigned)out[0]);
}

/* ---- the examples */

static void the_rules(void) {
    say("open", lampgrotto_open(table, WORDS, features, 2, CAPACITY));
    say_results("a: literal, feature 1, bits 5", lampgrotto_literal(table, WORDS, A, 1, 5, out, 17), 1);
    say_rule("a", A);
    say_results("count of 1 in a", lampgrotto_count(table, WORDS, A, 1, out, 17), 2);
    say_results("b: literal, feature 0, bits 2", lampgrotto_literal(table, WORDS, B, 0, 2, out, 17), 1);
    say_rule("b", B);
    say("c: smaller of a, b", lampgrotto_apply(table, WORDS, scratch, SCRATCH, C, SMALLER, A, B));
    say_rule("c", C);
    say("0 for a", lampgrotto_constant(table, WORDS, A, 0));
    say("0 for b", lampgrotto_constant(table, WORDS, B, 0));
    say_rule("c alone", C);
}

/* the rules a, b and c in their places; no scratch will do too */
static void fresh(void) {
    lampgrotto_open(table, WORDS, features, 2, CAPACITY);
    lampgrotto_literal(table, WORDS, A, 1, 5, out, 17);
    lampgrotto_literal(table, WORDS, B, 0, 2, out, 17);
    lampgrotto_apply(table, WORDS, scratch, 0, C, SMALLER, A, B);
    memset(out, 255, sizeof out);
}

static void held_and_removed(void) {
    fresh();
    say("c where feature 0 is 1", lampgrotto_restrict(table, WORDS, RESULT, C, 0, 1));
    say_results("the same as a", lampgrotto_same(table, WORDS, RESULT, A, out, 17), 1);
    say("c where feature 0 is 0", lampgrotto_restrict(table, WORDS, RESULT, C, 0, 0));
    say_results("the same as a", lampgrotto_same(table, WORDS, RESULT, A, out, 17), 1);
    say("the constant 0", lampgrotto_constant(table, WORDS, OTHER, 0));
    say_results("the same as that", lampgrotto_same(table, WORDS, RESULT, OTHER, out, 17), 1);
    say("c without feature 1", lampgrotto_forget(table, WORDS, scratch, SCRATCH, RESULT, C, 1));
    say_results("the same as b", lampgrotto_same(table, WORDS, RESULT, B, out, 17), 1);
}

static void chosen(void) {
    static const uint32_t branches[2] = {SEVEN, A};
    fresh();
    say("the constant 7", lampgrotto_constant(table, WORDS, SEVEN, 7));
    say("CASE of b over 7, a", lampgrotto_case(table, WORDS, scratch, SCRATCH, RESULT, B, branches, 2));
    say_rule("it", RESULT);
    say("copy", lampgrotto_copy(table, WORDS, OTHER, RESULT));
    say_rule("the copy", OTHER);
    say("CASE of a over one branch", lampgrotto_case(table, WORDS, scratch, SCRATCH, RESULT, A, branches, 1));
    say_rule("still", RESULT);
}

/* what forgetting leaves of 12 and 40 */
static void left(void) {
    static const uint32_t branches[2] = {TWELVE, FORTY};
    fresh();
    say("the constant 12", lampgrotto_constant(table, WORDS, TWELVE, 12));
    say("the constant 40", lampgrotto_constant(table, WORDS, FORTY, 40));
    say("CASE of c over 12, 40", lampgrotto_case(table, WORDS, scratch, SCRATCH, RESULT, C, branches, 2));
    say_rule("it", RESULT);
    say("without feature 1", lampgrotto_forget(table, WORDS, scratch, SCRATCH, OTHER, RESULT, 1));
    say_rule("left", OTHER);
    say("without feature 0", lampgrotto_forget(table, WORDS, scratch, SCRATCH, OTHER, RESULT, 0));
    say_rule("left", OTHER);
}

static void operators(void) {
    static const char *const names[6] = {"", "smaller", "larger", "equal", "less", "differ"};
    fresh();
    for (uint32_t op = SMALLER; op <= DIFFER; op++) {
        say(names[op], lampgrotto_apply(table, WORDS, scratch, SCRATCH, RESULT, op, A, B));
        say_rule("of a, b", RESULT);
    }
}

static void first_settings(void) {
    static const uint8_t from[2] = {1, 1};
    fresh();
    say_results("next 1 in c from (1, 1)", lampgrotto_next(table, WORDS, C, 1, from, 2, out, 17), 16);
    say_results("next 2 in c from (1, 1)", lampgrotto_next(table, WORDS, C, 2, from, 2, out, 17), 16);
}

static void sets(void) {
    fresh();
    say_results("bits 8 on feature 1", lampgrotto_literal(table, WORDS, RESULT, 1, 8, out, 17), 1);
    say_results("bits 0 on feature 1", lampgrotto_literal(table, WORDS, RESULT, 1, 0, out, 17), 1);
    say_rule("it", RESULT);
    say_results("bits 7 on feature 1", lampgrotto_literal(table, WORDS, RESULT, 1, 7, out, 17), 1);
    say_rule("it", RESULT);
}

static void room(void) {
    for (size_t capacity = 3; capacity >= 2; capacity--) {
        size_t words = LAMPGROTTO_WORDS(capacity);
        printf("capacity %u\n", (unsigned)capacity);
        lampgrotto_open(table, words, features, 2, capacity);
        lampgrotto_literal(table, words, A, 1, 5, out, 17);
        lampgrotto_literal(table, words, B, 0, 2, out, 17);
        say("c", lampgrotto_apply(table, words, scratch, SCRATCH, C, SMALLER, A, B));
        say_results("tally", lampgrotto_tally(table, words, out, 17), 1);
    }
}

/* sixteen features of size 8: more settings than a word counts */
static void many_settings(void) {
    uint8_t eights[16];
    memset(eights, 8, sizeof eights);
    lampgrotto_open(table, WORDS, eights, 16, CAPACITY);
    lampgrotto_constant(table, WORDS, A, 5);
    say_results("count of 5, all settings", lampgrotto_count(table, WORDS, A, 5, out, 17), 2);
    lampgrotto_literal(table, WORDS, A, 15, 3, out, 17);
    say_results("count of 1, a quarter of them", lampgrotto_count(table, WORDS, A, 1, out, 17), 2);
    memset(eights, 7, sizeof eights);
    say_results("next 0 from the last setting", lampgrotto_next(table, WORDS, A, 0, eights, 16, out, 17), 16);
}

/* ---- lent words */

static void short_results(void) {
    static const uint8_t from[2] = {1, 1};
    fresh();
    say_results("count, no room for it", lampgrotto_count(table, WORDS, A, 1, out, 0), 2);
    say_results("count, one word", lampgrotto_count(table, WORDS, A, 1, out, 1), 2);
    say_results("next, two words", lampgrotto_next(table, WORDS, C, 1, from, 2, out, 2), 3);
    say_results("next, refused, two words", lampgrotto_next(table, WORDS, C, 2, from, 2, out, 2), 3);
    say_results("step, three words", lampgrotto_step(features, 2, from, 2, out, 3), 4);
    say_results("same, no room for it", lampgrotto_same(table, WORDS, A, A, out, 0), 1);
}

static void steps(void) {
    static const uint8_t last[2] = {1, 2}, not_one[2] = {1, 3}, sizes[2] = {2, 9};
    say_results("step from the last", lampgrotto_step(features, 2, last, 2, out, 17), 17);
    say_results("step from no setting", lampgrotto_step(features, 2, not_one, 2, out, 17), 17);
    say_results("step from one value", lampgrotto_step(features, 2, last, 1, out, 17), 17);
    say_results("step over a size of 9", lampgrotto_step(sizes, 2, last, 2, out, 17), 17);
}

/* ---- what is refused */

static void openings(void) {
    static const uint8_t large[2] = {2, 9};
    say("open, no features", lampgrotto_open(table, WORDS, features, 0, CAPACITY));
    say("open, a size of 9", lampgrotto_open(table, WORDS, large, 2, CAPACITY));
    say("open, capacity 0", lampgrotto_open(table, WORDS, features, 2, 0));
    say("open, capacity 4,097", lampgrotto_open(table, WORDS, features, 2, 4097));
    say("open, a word short", lampgrotto_open(table, WORDS - 1, features, 2, CAPACITY));
}

/* every call once; w words are lent, and every place is beyond the table by p, every argument by x, where these are not 0 */
static void each_call(size_t w, size_t p, uint32_t x) {
    const uint32_t branches[2] = {(uint32_t)(SEVEN + p), A};
    const uint8_t zeros[2] = {0, 0}, setting[2] = {0, (uint8_t)x};
    say("constant", lampgrotto_constant(table, w, SEVEN + p, 7 + 65536 * x));
    say("copy", lampgrotto_copy(table, w, OTHER, SEVEN + p));
    say_results("literal", lampgrotto_literal(table, w, OTHER + p, x, 1, out, 17), 1);
    say("case", lampgrotto_case(table, w, scratch, SCRATCH, RESULT, B, branches, x ? 0 : 2));
    say("apply", lampgrotto_apply(table, w, scratch, SCRATCH, RESULT, DIFFER + x, A + p, B));
    say("restrict, feature", lampgrotto_restrict(table, w, RESULT, C + p, x, 1));
    say("restrict, value", lampgrotto_restrict(table, w, RESULT, C + p, 0, x));
    say("forget", lampgrotto_forget(table, w, scratch, SCRATCH, RESULT, C + p, x));
    say_results("look up", lampgrotto_rule_look_up(table, w, SEVEN + p, setting, 2, out, 17), 2);
    say_results("same", lampgrotto_same(table, w, A, A + p, out, 17), 1);
    say_results("count", lampgrotto_count(table, w, B + p, 1 + 65536 * x, out, 17), 2);
    say_results("next, number", lampgrotto_next(table, w, B + p, 1 + 65536 * x, zeros, 2, out, 17), 3);
    say_results("next, setting", lampgrotto_next(table, w, B + p, 1, setting, 2, out, 17), 3);
    say_results("tally", lampgrotto_tally(table, w, out, 17), 1);
}

static void refusals(void) {
    static uint32_t before[WORDS + PAST];
    fresh();
    lampgrotto_constant(table, WORDS, SEVEN, 7);
    lampgrotto_copy(table, WORDS, OTHER, SEVEN); /* so that the copy of each_call changes nothing */
    memset(table + WORDS, 1, PAST * sizeof *table);
    memcpy(before, table, sizeof table);
    printf("-- each call, places beyond the table\n");
    each_call(WORDS, 32, 0);
    printf("-- each call, arguments outside their ranges\n");
    each_call(WORDS, 0, 9);
    printf("-- each call, a word short\n");
    each_call(WORDS - 1, 0, 0);
    printf("the words are %s\n", memcmp(before, table, sizeof table) ? "changed" : "kept");
    table[WORDS - 1] = 1;
    printf("-- each call, a word spoiled, and all else wrong\n");
    each_call(WORDS + PAST, 32, 9);
    table[WORDS - 1] = 0;
    printf("-- each call, with words past the table\n");
    each_call(WORDS + PAST, 0, 0);
    printf("the words past it are %s\n", memcmp(before + WORDS, table + WORDS, PAST * sizeof *table) ? "changed" : "kept");
}

/* ---- sheets */

/* the scope's sheet: one feature of size 2, phrases 7 and 9 */
static const uint8_t seven_nine[20] = {0, 1, 1, 0, 1, 2, 0, 1, 0, 0, 0, 7, 0, 0, 9, 0, 1, 1, 0, 0};
static uint8_t bytes[64];

static void say_bytes(const char *what, size_t n) {
    printf("%s:", what);
    for (size_t i = 0; i < n; i++) printf(" %02x", bytes[i]);
    printf("\n");
}

/* the sheet of a rule, with the bytes behind it; then read into another place */
static void written(size_t place) {
    memset(bytes, 170, sizeof bytes);
    say_results("write", lampgrotto_write(table, WORDS, place, bytes, sizeof bytes, out, 17), 1);
    say_bytes("sheet", 33);
    say("read", lampgrotto_read(table, WORDS, OTHER, bytes, 31));
    say_results("the same", lampgrotto_same(table, WORDS, place, OTHER, out, 17), 1);
}

static void sheets(void) {
    static const uint8_t two[1] = {2}, settings[3] = {0, 1, 2};
    fresh();
    written(C);
    memset(bytes, 170, sizeof bytes);
    say_results("write, a byte short", lampgrotto_write(table, WORDS, C, bytes, 30, out, 17), 1);
    say_bytes("bytes", 4);
    say("read, other features", lampgrotto_read(table, WORDS, OTHER, seven_nine, 20));
    lampgrotto_open(table, WORDS, two, 1, CAPACITY);
    say("read 7, 9", lampgrotto_read(table, WORDS, A, seven_nine, 20));
    memset(bytes, 170, sizeof bytes);
    say_results("write it", lampgrotto_write(table, WORDS, A, bytes, sizeof bytes, out, 17), 1);
    say_bytes("sheet", 21);
    for (int v = 0; v < 3; v++) printf("at %d: %u\n", v, (unsigned)lampgrotto_look_up(seven_nine, 20, settings + v, 1));
    printf("a byte short: %u\n", (unsigned)lampgrotto_look_up(seven_nine, 19, settings, 1));
    memset(bytes, 170, sizeof bytes);
    say_results("write a constant", lampgrotto_write(table, WORDS, B, bytes, sizeof bytes, out, 17), 1);
    say_bytes("sheet", 14);
}

static void bad_sheets(void) {
    static const uint8_t newer[3] = {0, 1, 2};
    fresh();
    say("read, a newer edition", lampgrotto_read(table, WORDS, OTHER, newer, 3));
    say("read, no bytes", lampgrotto_read(table, WORDS, OTHER, newer, 0));
    say("read, a byte short", lampgrotto_read(table, WORDS, OTHER, seven_nine, 19));
    say("read, no such place", lampgrotto_read(table, WORDS, 32, newer, 3));
    say_results("write, no such place", lampgrotto_write(table, WORDS, 32, bytes, 0, out, 17), 1);
    lampgrotto_write(table, WORDS, C, bytes, sizeof bytes, out, 17);
    lampgrotto_open(table, LAMPGROTTO_WORDS(1), features, 2, 1);
    say("read, no room", lampgrotto_read(table, LAMPGROTTO_WORDS(1), OTHER, bytes, 31));
    table[0] = 2;
    say("read, damaged", lampgrotto_read(table, LAMPGROTTO_WORDS(1), 32, newer, 3));
    say_results("write, damaged", lampgrotto_write(table, LAMPGROTTO_WORDS(1), 32, bytes, 0, out, 17), 1);
}

int main(void) {
    the_rules();
    held_and_removed();
    chosen();
    left();
    operators();
    first_settings();
    sets();
    room();
    many_settings();
    short_results();
    steps();
    openings();
    refusals();
    sheets();
    bad_sheets();
    return 0;
}
