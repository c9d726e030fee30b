/* Forgetting on a rule with more phrases than 0 and 1, which the rules that are timed do not have: the plain C program must leave what the
   library leaves. */
#include "lampgrotto.h"
#include "plain.h"
#include <stdio.h>

enum { CAPACITY = 16, WORDS = 8192 + 32 * CAPACITY };
enum { NOTHING, TWELVE, FORTY, FIRST, SECOND, EITHER, RULE, LEFT }; /* places; LEFT + f has the rule without feature f */

static const uint8_t features[3] = {2, 3, 2};
static uint32_t words[WORDS], scratch[1], out[1];

/* 12, or 40 where feature 0 is 1; nothing where feature 1 is 0 */
static uint32_t filled(void) {
    static const uint32_t phrases[2] = {TWELVE, FORTY}, some[2] = {NOTHING, EITHER};
    uint32_t refused = lampgrotto_open(words, WORDS, features, 3, CAPACITY);
    refused |= lampgrotto_constant(words, WORDS, TWELVE, 12) | lampgrotto_constant(words, WORDS, FORTY, 40);
    refused |= lampgrotto_literal(words, WORDS, FIRST, 0, 2, out, 1) | lampgrotto_literal(words, WORDS, SECOND, 1, 6, out, 1);
    refused |= lampgrotto_case(words, WORDS, scratch, 0, EITHER, FIRST, phrases, 2);
    return refused | lampgrotto_case(words, WORDS, scratch, 0, RULE, SECOND, some, 2);
}

int main(void) {
    uint32_t refused = filled();
    for (unsigned f = 0; f < 3; f++) refused |= lampgrotto_forget(words, WORDS, scratch, 0, LEFT + f, RULE, f);
    plain_load(words);
    int alike = !refused;
    for (unsigned f = 0; f < 3; f++) alike = alike && plain_forget(plain_root(RULE), f) == plain_root(LEFT + f);
    puts(alike ? "of the phrases 12 and 40 both leave the same" : "of the phrases 12 and 40 they leave another");
    return !alike;
}
