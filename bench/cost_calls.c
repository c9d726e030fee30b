/* The calls of a cost table, and those on it and a rule table, at several numbers of nodes in use: how each grows, and how it compares with
   the plain C program, and with that program and the tests of the tables that a call is lent. With any argument the library is timed
   alone, a line for each call and size, for bench/beside. */
#include "check.h"
#include "columns.h"
#include "cost_jobs.h"
#include "plain_costs.h"
#include "timing.h"
#include <stdio.h>
#ifndef SIZE
#define SIZE 8 /* of each of the sixteen features */
#endif

/* ---- the plain program */
static cost result;
static branch rule;
static int64_t number;
static uint8_t first[16];

static cost of(size_t place) { return plain_cost_root(place); }
static void plain_looking(void) { sink += number = plain_cost_look_up(of(in.largest), at_setting); }
static void plain_constant(void) { sink += (result = plain_cost_constant(7)).adds; }
static void plain_adding(void) { sink += plain_add(of(in.add_a), of(in.add_b), &result); }
static void plain_lesser(void) { sink += (result = plain_smaller(of(in.smaller_a), of(in.smaller_b))).adds; }
static void plain_scaling(void) { sink += plain_scale(of(in.scale), FACTOR, &result); }
static void plain_choosing(void) { sink += (result = plain_choose(plain_root(in.rule), of(in.pick_a), of(in.pick_b))).adds; }
static void plain_comparing(void) { sink += rule = plain_less(of(in.less_a), of(in.less_b)); }
static void plain_seeking(void) { sink += plain_lowest(of(in.largest), plain_root(BELOW), &number, first); }
static void checking(void) { sink += cost_table_is_sound(costs, length); }
static void checking_rules(void) { sink += table_is_sound(words, length); }
static void summing(void) { sum_words(costs, length); }

/* ---- one job in each way; where it makes a cost or a rule, that must be the one of the place */
enum kind { NUMBER, COST, RULE };
static const struct job {
    const char *name;
    void (*library)(void), (*plain)(void);
    enum kind makes;
    size_t place;
    int both; /* tables are lent */
} jobs[] = {
    {"look up", library_cost_look_up, plain_looking, NUMBER, 0, 0},
    {"constant", library_cost_constant, plain_constant, COST, AMOUNT, 0},
    {"add", library_add, plain_adding, COST, ADDED, 0},
    {"smaller", library_smaller, plain_lesser, COST, LESSER, 0},
    {"scale", library_scale, plain_scaling, COST, SCALED, 0},
    {"choose", library_choose, plain_choosing, COST, PICKED, 1},
    {"less", library_less, plain_comparing, RULE, BELOW, 1},
    {"lowest", library_lowest, plain_seeking, NUMBER, 0, 1},
};
enum { JOBS = sizeof jobs / sizeof *jobs };

static void agree(const struct job *j) {
    uint64_t before = sink;
    j->library();
    expect(sink == before, j->name);
    j->plain();
    cost wanted = of(j->place);
    if (j->makes == COST) expect(result.to == wanted.to && result.adds == wanted.adds, j->name);
    if (j->makes == RULE) expect(rule == plain_root(j->place), j->name);
    if (j->makes == NUMBER) expect(number == (int32_t)found[0], j->name);
    if (j->library == library_cost_look_up) expect(found[1] == plain_cost_asked(of(in.largest), at_setting), j->name);
    for (int k = 0; j->library == library_lowest && k < 16; k++) expect(first[k] == found[1 + k], j->name);
}

static double times[JOBS][SIZES], plains[JOBS][SIZES], tested[JOBS][SIZES], checks[SIZES], rule_checks[SIZES], sums[SIZES];

static void measure(int column, int alone) {
    in_use[column] = prepare_costs(SIZE, capacities[column]);
    expect(cost_table_is_sound(costs, length) && table_is_sound(words, length), "the plain tests");
    for (int j = 0; alone && j < JOBS; j++) times[j][column] = best(jobs[j].library);
    if (alone) return;
    plain_load(words);
    plain_costs_load(costs);
    for (int j = 0; j < JOBS; j++) agree(&jobs[j]);
    for (int turn = 0; turn < 2; turn++) { /* as others use the machine too */
        better(&sums[column], summing);
        better(&checks[column], checking);
        better(&rule_checks[column], checking_rules);
        for (int j = 0; j < JOBS; j++) better(&times[j][column], jobs[j].library);
        for (int j = 0; j < JOBS; j++) better(&plains[j][column], jobs[j].plain);
    }
    for (int j = 0; j < JOBS; j++) tested[j][column] = plains[j][column] + checks[column] + (jobs[j].both ? rule_checks[column] : 0);
}

static void rows(double (*unit)[SIZES], const double *sum) {
    for (int j = 0; j < JOBS; j++) row(jobs[j].name, times[j], unit ? unit[j] : sum);
}

int main(int words_given, char **given) {
    int alone = words_given > 1;
    (void)given;
    for (int c = 0; c < SIZES; c++) measure(c, alone);
    for (int j = 0; alone && j < JOBS; j++) lines(jobs[j].name, times[j]);
    if (alone) return 0;
    heading("Microseconds for one call:");
    rows(NULL, NULL);
    row("the cost table's test, in C", checks, NULL);
    row("the rule table's test, in C", rule_checks, NULL);
    heading("Times the sum of the table's words:");
    rows(NULL, sums);
    row("the cost table's test, in C", checks, sums);
    row("the rule table's test, in C", rule_checks, sums);
    heading("Times the plain C program with the call's tests:");
    rows(tested, NULL);
    heading("Times the plain C program without any test:");
    rows(plains, NULL);
    return 0;
}
