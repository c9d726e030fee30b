/* Lampgrotto for C: rules and costs over features, kept as decision diagrams in words that the caller lends.

   A slice of the library is a pointer and a length here. A pointer must be good for its length (any pointer that is not null will
   do where the length is 0), and a slice that a call writes must not overlap another of that call. Everything else a call tests
   itself. Nothing is allocated, nothing is kept between calls, and there is no state but the lent words: calls on different
   tables may run at the same time.

   Every function is proved against docs/PROMISES.md, which says the same as the comments here, more exactly. */
#ifndef LAMPGROTTO_H
#define LAMPGROTTO_H

#include <stddef.h>
#include <stdint.h>

#ifdef __cplusplus
extern "C" {
#endif

/* How a call ends. 0: it was done. Of several refusals that apply the lowest is given, and the table is left as it was. */
enum lampgrotto_ending {
    LAMPGROTTO_TAKEN = 0,
    LAMPGROTTO_DAMAGED = 1,        /* the words are no sound table */
    LAMPGROTTO_BAD_PLACE = 2,      /* a place beyond its table: 32 or more of rules, 16 or more of costs */
    LAMPGROTTO_NEWER = 3,          /* a sheet of a later edition */
    LAMPGROTTO_BAD_SHEET = 4,      /* the bytes are no sheet of any rule */
    LAMPGROTTO_OTHER_FEATURES = 5, /* the feature list of the sheet, or of the second table, is not the table's */
    LAMPGROTTO_BAD_ARGUMENT = 6,   /* a feature, value, set, operator, list length, setting or number outside its range */
    LAMPGROTTO_BAD_SELECTOR = 7,   /* a selector that chooses a branch which the list has not */
    LAMPGROTTO_RANGE = 8,          /* a resulting cost outside its range at some setting */
    LAMPGROTTO_NO_ROOM = 9,        /* the nodes of all places, with those of the result, are more than the capacity */
    LAMPGROTTO_NO_SPACE = 10,      /* the output is shorter than the sheet */
    LAMPGROTTO_NONE = 11,          /* there is no such setting */
    LAMPGROTTO_BAD_OPENING = 12    /* no feature list, a capacity outside 1 to 4,096, or too few words */
};

/* ---- libsheets.a: the phone's lookup */

/* The phrase number (below 65,536) that the sheet's rule gives the setting, a byte for each feature; or 65,536 plus NEWER,
   BAD_SHEET or BAD_ARGUMENT (no setting of the sheet's features). The whole sheet is checked each time. It takes 51 KB of stack. */
uint32_t lampgrotto_look_up(const uint8_t *sheet, size_t sheet_len, const uint8_t *setting, size_t setting_len);

/* The same for several settings, with one check of the sheet. There are as many rows as words in numbers, and settings has them one
   after the other, a byte for each feature. numbers[i] gets the phrase number that lampgrotto_look_up gives row i. All rows are tested
   first: a refused call writes no word. With no words and no bytes it tells whether the sheet is good. It returns how the call ended.
   Refuses: NEWER; BAD_SHEET; BAD_ARGUMENT, bytes missing or left over or a row that is no setting of the sheet's features. It takes
   67 KB of stack. */
uint32_t lampgrotto_look_up_all(const uint8_t *sheet, size_t sheet_len, const uint8_t *settings, size_t settings_len,
                                uint32_t *numbers, size_t numbers_len);

/* ---- liblampgrotto.a: a rule table in lent words

   A table has 32 places, 0 to 31, and each holds a rule. A rule gives each setting (a byte for each feature) a number from 0 to
   65,535. Every call answers how it ended, and takes
     t         the table's words; words past LAMPGROTTO_WORDS(capacity) are neither read nor written;
     scratch   words for remembered results, any number of them, 0 too, with anything in them. No answer and no table depends on
               them, only the time: as many as the nodes in use ask for (1,024, and 64 for each) are cleared first and used, in less and
               lowest all of them. Where there are fewer (in less, lowest and small tables fewer than 6,144; 5,632 in apply, case and
               forget) a call remembers on its own stack, or in spare words of a table that it writes; so lending none does well;
     place     the place that gets the result; it may be one of those that the call reads;
     out       words for results. They are laid over its front, as many as fit; a refused call lays 0s. Words past them stay.
   Every call but open refuses DAMAGED words. A call that is lent scratch takes up to 42 KB of stack, any other up to
   18 KB, if its comment does not say more. */

/* How many words a table of this capacity (1 to 4,096 nodes) needs. */
#define LAMPGROTTO_WORDS(capacity) (32 * (size_t)(capacity) + 8192)

/* Makes a fresh table over 1 to 16 features of 2 to 8 values: all places hold the constant 0. The words may hold anything before.
   Refuses: BAD_OPENING. */
uint32_t lampgrotto_open(uint32_t *t, size_t t_len, const uint8_t *features, size_t features_len, size_t capacity);

/* The place gives every setting the number.
   Refuses: BAD_PLACE; BAD_ARGUMENT, a number past 65,535. */
uint32_t lampgrotto_constant(uint32_t *t, size_t t_len, size_t place, uint32_t number);

/* The place gets the rule of another.
   Refuses: BAD_PLACE. */
uint32_t lampgrotto_copy(uint32_t *t, size_t t_len, size_t place, size_t from);

/* The place gives 1 where the feature's value is in the set, else 0. Bit v of bits stands for value v. out[0]: how many values the
   set has.
   Refuses: BAD_PLACE; BAD_ARGUMENT, no such feature or a bit at or above its size; NO_ROOM. */
uint32_t lampgrotto_literal(uint32_t *t, size_t t_len, size_t place, size_t feature, uint32_t bits, uint32_t *out, size_t out_len);

/* At each setting the place gives the number of one of 1 to 8 branches, which are places: the one whose index is the selector's
   number.
   Refuses: BAD_PLACE; BAD_ARGUMENT, 0 or more than 8 branches; BAD_SELECTOR; NO_ROOM. */
uint32_t lampgrotto_case(uint32_t *t, size_t t_len, uint32_t *scratch, size_t scratch_len, size_t place, size_t selector,
                         const uint32_t *branches, size_t branches_len);

/* At each setting the place gives the operator of the numbers of places a and b: 1 smaller, 2 larger, or 1 where they are
   3 equal, 4 less, 5 different, else 0.
   Refuses: BAD_PLACE; BAD_ARGUMENT, another operator; NO_ROOM. */
uint32_t lampgrotto_apply(uint32_t *t, size_t t_len, uint32_t *scratch, size_t scratch_len, size_t place, uint32_t op, size_t a,
                          size_t b);

/* The place gets the rule of another with a feature held at a value: it no longer depends on that feature.
   Refuses: BAD_PLACE; BAD_ARGUMENT, no such feature or value; NO_ROOM. */
uint32_t lampgrotto_restrict(uint32_t *t, size_t t_len, size_t place, size_t from, size_t feature, size_t value);

/* The place gets the rule of another with a feature removed: of the numbers over its values 0 where no other occurs, the other
   number where exactly one does, and 65,535 ("ask the traveller") where two or more differ.
   Refuses: BAD_PLACE; BAD_ARGUMENT, no such feature; NO_ROOM. */
uint32_t lampgrotto_forget(uint32_t *t, size_t t_len, uint32_t *scratch, size_t scratch_len, size_t place, size_t from,
                           size_t feature);

/* out[0]: the number that the place gives the setting. out[1]: how many features were asked for it: those on which the rule still
   depends once the features before them are fixed as in the setting, so 0 for a constant.
   Refuses: BAD_PLACE; BAD_ARGUMENT, no setting of the table's features. */
uint32_t lampgrotto_rule_look_up(const uint32_t *t, size_t t_len, size_t place, const uint8_t *setting, size_t setting_len,
                                 uint32_t *out, size_t out_len);

/* out[0]: 1 where the rules of two places agree at every setting, else 0.
   Refuses: BAD_PLACE. */
uint32_t lampgrotto_same(const uint32_t *t, size_t t_len, size_t a, size_t b, uint32_t *out, size_t out_len);

/* out[0] + 2^32 out[1]: how many settings the place gives the number.
   Refuses: BAD_PLACE; BAD_ARGUMENT, a number past 65,535. It takes 51 KB of stack. */
uint32_t lampgrotto_count(const uint32_t *t, size_t t_len, size_t place, uint32_t number, uint32_t *out, size_t out_len);

/* out[0] to out[15]: the first setting at or after the given one to which the place gives the number, a word for each feature, and
   0 past them.
   Refuses: BAD_PLACE; BAD_ARGUMENT, a number past 65,535 or no setting of the table's features; NONE. It takes 22 KB of stack. */
uint32_t lampgrotto_next(const uint32_t *t, size_t t_len, size_t place, uint32_t number, const uint8_t *setting, size_t setting_len,
                         uint32_t *out, size_t out_len);

/* out[0]: how many distinct rests the rules of all places have, which is the nodes in use. */
uint32_t lampgrotto_tally(const uint32_t *t, size_t t_len, uint32_t *out, size_t out_len);

/* Writes the sheet of the place's rule to the front of the bytes; those after it stay. out[0]: how many bytes it has, at most 102,428.
   Refuses: BAD_PLACE; NO_SPACE, fewer bytes than that, and then none is written. It takes 42 KB of stack. */
uint32_t lampgrotto_write(const uint32_t *t, size_t t_len, size_t place, uint8_t *sheet, size_t sheet_len, uint32_t *out,
                          size_t out_len);

/* The place gets the rule of a sheet.
   Refuses: BAD_PLACE; NEWER; BAD_SHEET; OTHER_FEATURES; NO_ROOM. It takes 67 KB of stack. */
uint32_t lampgrotto_read(uint32_t *t, size_t t_len, size_t place, const uint8_t *sheet, size_t sheet_len);

/* ---- settings in dictionary order, with no table (liblampgrotto.a) */

/* out[0]: 1 if the setting is the last of its features, else 0; out[1] to out[16]: the next one, a word for each feature, and 0 past
   them; after the last all 0.
   Refuses: BAD_ARGUMENT, no feature list or no setting of it. */
uint32_t lampgrotto_step(const uint8_t *features, size_t features_len, const uint8_t *setting, size_t setting_len, uint32_t *out,
                         size_t out_len);

/* ---- liblampgrotto_costs.a: a cost table in lent words, and the calls on both tables

   A table has 16 places, 0 to 15, and each holds a cost. A cost gives each setting an integer from -1,000,000,000 to 1,000,000,000.
   It has as many words as a rule table of its capacity, LAMPGROTTO_WORDS(capacity); no sound rule table is a sound cost table, nor
   the other way round. The calls take t, scratch, place and out as those of a rule table do, and end as they do. A cost is one word
   of out, to be read as a signed number: (int32_t)out[0]. Each node of a cost table keeps the lowest and the highest sum below it, so a
   table with nodes that an earlier library left, which did not, is DAMAGED: such tables are not carried over. */

/* Makes a fresh table over 1 to 16 features of 2 to 8 values: all places hold the constant 0. The words may hold anything before.
   Refuses: BAD_OPENING. */
uint32_t lampgrotto_cost_open(uint32_t *t, size_t t_len, const uint8_t *features, size_t features_len, size_t capacity);

/* The place gives every setting the amount.
   Refuses: BAD_PLACE; BAD_ARGUMENT, an amount beyond 1,000,000,000 or below -1,000,000,000. */
uint32_t lampgrotto_cost_constant(uint32_t *t, size_t t_len, size_t place, int64_t amount);

/* The place gets the cost of another.
   Refuses: BAD_PLACE. */
uint32_t lampgrotto_cost_copy(uint32_t *t, size_t t_len, size_t place, size_t from);

/* The place gives each setting the price of its feature's value, prices[v] for value v.
   Refuses: BAD_PLACE; BAD_ARGUMENT, no such feature, more or fewer prices than it has values, or a price beyond 1,000,000,000 or
   below -1,000,000,000; NO_ROOM. */
uint32_t lampgrotto_price(uint32_t *t, size_t t_len, size_t place, size_t feature, const int64_t *prices, size_t prices_len);

/* At each setting the place gives the sum of the costs of places a and b; the first less the second; the smaller; the larger.
   Refuses: BAD_PLACE; RANGE; NO_ROOM. */
uint32_t lampgrotto_add(uint32_t *t, size_t t_len, uint32_t *scratch, size_t scratch_len, size_t place, size_t a, size_t b);
uint32_t lampgrotto_subtract(uint32_t *t, size_t t_len, uint32_t *scratch, size_t scratch_len, size_t place, size_t a, size_t b);
uint32_t lampgrotto_smaller(uint32_t *t, size_t t_len, uint32_t *scratch, size_t scratch_len, size_t place, size_t a, size_t b);
uint32_t lampgrotto_larger(uint32_t *t, size_t t_len, uint32_t *scratch, size_t scratch_len, size_t place, size_t a, size_t b);

/* The place gets the cost of place a times the factor.
   Refuses: BAD_PLACE; BAD_ARGUMENT, a factor beyond 1,000,000,000 or below -1,000,000,000; RANGE; NO_ROOM. */
uint32_t lampgrotto_scale(uint32_t *t, size_t t_len, uint32_t *scratch, size_t scratch_len, size_t place, size_t a, int64_t factor);

/* out[0]: the cost that the place gives the setting. out[1]: how many features were asked for it, as of rules.
   Refuses: BAD_PLACE; BAD_ARGUMENT, no setting of the table's features. */
uint32_t lampgrotto_cost_look_up(const uint32_t *t, size_t t_len, size_t place, const uint8_t *setting, size_t setting_len,
                                 uint32_t *out, size_t out_len);

/* out[0]: 1 where the costs of two places agree at every setting, else 0.
   Refuses: BAD_PLACE. */
uint32_t lampgrotto_cost_same(const uint32_t *t, size_t t_len, size_t a, size_t b, uint32_t *out, size_t out_len);

/* out[0]: how many distinct rests the costs of all places have, which is the nodes in use. */
uint32_t lampgrotto_cost_tally(const uint32_t *t, size_t t_len, uint32_t *out, size_t out_len);

/* The calls on both tables are lent a rule table (rules; t of less) and a cost table (costs; t of choose) over one feature list. They
   write to t alone, and refuse DAMAGED words of either. */

/* The place of the cost table t gives, at each setting, the cost of place a where the rule of the rule table's place is not 0, else
   that of place b.
   Refuses: BAD_PLACE; OTHER_FEATURES; NO_ROOM. */
uint32_t lampgrotto_choose(uint32_t *t, size_t t_len, const uint32_t *rules, size_t rules_len, uint32_t *scratch,
                           size_t scratch_len, size_t place, size_t rule, size_t a, size_t b);

/* The place of the rule table t gives 1 where the cost of the cost table's place a is below that of place b, else 0.
   Refuses: BAD_PLACE; OTHER_FEATURES; NO_ROOM. */
uint32_t lampgrotto_less(uint32_t *t, size_t t_len, const uint32_t *costs, size_t costs_len, uint32_t *scratch, size_t scratch_len,
                         size_t place, size_t a, size_t b);

/* out[0]: the lowest cost that the place gives a setting where the rule is not 0; out[1] to out[16]: the first setting that has it,
   a word for each feature, and 0 past them.
   Refuses: BAD_PLACE; OTHER_FEATURES; NONE, the rule is 0 at every setting. It takes 42 KB of stack. */
uint32_t lampgrotto_lowest(const uint32_t *costs, size_t costs_len, const uint32_t *rules, size_t rules_len, uint32_t *scratch,
                           size_t scratch_len, size_t place, size_t rule, uint32_t *out, size_t out_len);

#ifdef __cplusplus
}
#endif

#endif
