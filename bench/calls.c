/* The calls of a rule table at several numbers of nodes in use: how each grows, and how it compares with the plain C program, with
   that program and the call's tests before each call (of the table, for read of the sheet too), and, for yes/no features, with BuDDy.
   With any argument the library is timed alone, a line for each call and size, for bench/beside. */
#include "check.h"
#include "columns.h"
#include "plain.h"
#include "rule_jobs.h"
#include "timing.h"
#include <stdio.h>
#include <string.h>
#ifndef SIZE
#define SIZE 8 /* of each of the sixteen features; BUDDY asks for 2 */
#endif
#ifdef BUDDY
#include <bdd.h>
extern void bdd_operator_reset(void); /* forgets remembered results, which a library call does not keep either */
#endif

/* ---- the plain program */
static branch result;
static uint64_t number;
static uint8_t found[16], plain_sheet[102428]; /* as the plain program writes it */

static void plain_looking(void) { sink += number = plain_look_up(plain_root(at.largest), setting); }
static void plain_constant(void) { sink += result = 2 * 7 + 1; }
static void plain_applying(void) { sink += result = plain_apply(DIFFER, plain_root(at.apply_a), plain_root(at.apply_b)); }
static void plain_choosing(void) {
    branch branches[2] = {plain_root(at.case_a), plain_root(at.case_b)};
    sink += result = plain_case(plain_root(SELECTOR), branches, 2);
}
static void plain_forgetting(void) { sink += result = plain_forget(plain_root(at.forget), at.forget_f); }
static void plain_restricting(void) { sink += result = plain_restrict(plain_root(at.restrict_), at.restrict_f, 1); }
static void plain_counting(void) { sink += number = plain_count(plain_root(at.largest), 1); }
static void plain_meeting(void) {
    memcpy(found, setting, 16);
    sink += number = plain_next(plain_root(at.largest), 1, found);
}
static void plain_writing(void) { sink += number = plain_write(plain_root(at.largest), plain_sheet); }
static void plain_reading(void) { sink += result = plain_read(sheet); }
static void checking(void) { sink += table_is_sound(words, length); }
static void checking_sheet(void) { sink += sheet_is_good(sheet, sheet_length); }

/* ---- BuDDy */
#ifdef BUDDY
static BDD diagrams[32];

static void buddy_load(void) {
    static BDD nodes[4096];
    bdd_init(20000, 2 * (int)words[19] + 16); /* as many remembered results as the scratch has room for, and some more */
    bdd_setvarnum(16);
    for (uint32_t i = 0; i < words[19]; i++) {
        const uint32_t *r = words + 8192 + 16 * (size_t)i;
        BDD low = r[1] < 65536 ? (r[1] ? bddtrue : bddfalse) : nodes[r[1] - 65536];
        BDD high = r[2] < 65536 ? (r[2] ? bddtrue : bddfalse) : nodes[r[2] - 65536];
        nodes[i] = bdd_addref(bdd_ite(bdd_ithvar(r[0]), high, low));
    }
    for (int p = 0; p < 32; p++) {
        uint32_t b = words[32 + p];
        diagrams[p] = b < 65536 ? (b ? bddtrue : bddfalse) : nodes[b - 65536];
    }
}

static BDD answer;
static void buddy_reset(void) { bdd_operator_reset(); }
static void buddy_apply(void) {
    bdd_operator_reset();
    answer = bdd_apply(diagrams[at.apply_a], diagrams[at.apply_b], bddop_xor);
}
static void buddy_case(void) {
    bdd_operator_reset();
    answer = bdd_ite(diagrams[SELECTOR], diagrams[at.case_b], diagrams[at.case_a]);
}
static void buddy_forget(void) {
    bdd_operator_reset();
    answer = bdd_exist(diagrams[at.forget], bdd_ithvar((int)at.forget_f));
}
static void buddy_restrict(void) {
    bdd_operator_reset();
    answer = bdd_restrict(diagrams[at.restrict_], bdd_ithvar((int)at.restrict_f));
}
static void buddy_count(void) {
    bdd_operator_reset();
    number = (uint64_t)bdd_satcount(diagrams[at.largest]);
}
static void buddy_look_up(void) {
    BDD b = diagrams[at.largest];
    while (b > 1) b = setting[bdd_var(b)] ? bdd_high(b) : bdd_low(b);
    number = b;
}
#endif

/* ---- one job in each way; where a way writes a rule, its result must be that of the place */
struct job {
    const char *name;
    void (*library)(void), (*plain)(void), (*buddy)(void);
    size_t place; /* of the result; 0: a number */
};

#ifdef BUDDY
#define OR_BUDDY(job) job
#else
#define OR_BUDDY(job) NULL
#endif

static const struct job jobs[] = {
    {"look up", library_look_up, plain_looking, OR_BUDDY(buddy_look_up), 0},
    {"constant", library_constant, plain_constant, NULL, CONSTANT},
    {"apply", library_apply, plain_applying, OR_BUDDY(buddy_apply), APPLIED},
    {"CASE", library_case, plain_choosing, OR_BUDDY(buddy_case), CHOSEN},
    {"forget", library_forget, plain_forgetting, OR_BUDDY(buddy_forget), FORGOTTEN},
    {"restrict", library_restrict, plain_restricting, OR_BUDDY(buddy_restrict), RESTRICTED},
    {"count", library_count, plain_counting, OR_BUDDY(buddy_count), 0},
    {"next", library_next, plain_meeting, NULL, 0},
    {"write", library_write, plain_writing, NULL, 0},
    {"read", library_read, plain_reading, NULL, READ},
};
enum { JOBS = sizeof jobs / sizeof *jobs };

/* the number that the library has just laid: the setting of next is compared by itself */
static uint64_t laid(const struct job *j) { return j->library == library_count ? out[0] + ((uint64_t)out[1] << 32) : out[0]; }

static void agree(const struct job *j) {
    uint64_t before = sink;
    j->library();
    expect(sink == before, j->name);
    uint64_t wanted = laid(j);
    j->plain();
    if (j->place) expect(result == plain_root(j->place), j->name);
    else if (j->library != library_next) expect(number == wanted, j->name);
    else
        for (int k = 0; k < 16; k++) expect(number && found[k] == out[k], j->name);
    if (j->library == library_look_up) expect(out[1] == plain_asked(plain_root(at.largest), setting), j->name);
    if (j->library == library_write) expect(!memcmp(sheet, plain_sheet, sheet_length), j->name);
#ifdef BUDDY
    if (!j->buddy) return;
    j->buddy();
    if (j->place) expect(answer == diagrams[j->place], "BuDDy");
    else expect(number == wanted, "BuDDy");
#endif
}

static double times[JOBS][SIZES], plains[JOBS][SIZES], tested[JOBS][SIZES], checks[SIZES], sums[SIZES];
#ifdef BUDDY
static double buddies[JOBS][SIZES];
#endif
static uint32_t in_sheet[SIZES];
static int alone; /* nothing beside the library is timed */

static void summing(void) { sum_words(words, length); }

#ifdef BUDDY
static void time_buddy(int column) {
    double reset = best(buddy_reset);
    for (int j = 0; j < JOBS; j++)
        if (jobs[j].buddy) buddies[j][column] = best(jobs[j].buddy) - (jobs[j].library == library_look_up ? 0 : reset);
}
#endif

static void measure(uint8_t size, size_t capacity, int column) {
    in_use[column] = prepare(size, capacity);
    in_sheet[column] = sheet[21] * 256u + sheet[22];
    expect(table_is_sound(words, length) && sheet_is_good(sheet, sheet_length), "the plain tests");
    plain_load(words);
    for (int j = 0; alone && j < JOBS; j++) times[j][column] = best(jobs[j].library);
    if (alone) return;
    double sheet_check = best(checking_sheet);
#ifdef BUDDY
    buddy_load();
#endif
    for (int j = 0; j < JOBS; j++) agree(&jobs[j]);
    for (int turn = 0; turn < 2; turn++) { /* as others use the machine too */
        better(&sums[column], summing);
        better(&checks[column], checking);
        for (int j = 0; j < JOBS; j++) better(&times[j][column], jobs[j].library);
        for (int j = 0; j < JOBS; j++) better(&plains[j][column], jobs[j].plain);
    }
    for (int j = 0; j < JOBS; j++)
        tested[j][column] = plains[j][column] + checks[column] + (jobs[j].library == library_read ? sheet_check : 0);
#ifdef BUDDY
    time_buddy(column);
    bdd_done();
#endif
}

static void tables(void) {
    heading("Microseconds for one call:");
    for (int j = 0; j < JOBS; j++) row(jobs[j].name, times[j], NULL);
    row("the table's test, in C", checks, NULL);
    heading("Times the sum of the table's words:");
    for (int j = 0; j < JOBS; j++) row(jobs[j].name, times[j], sums);
    row("the table's test, in C", checks, sums);
    printf("\nNodes of the rule that is looked up, counted, written and read:");
    for (int c = 0; c < SIZES; c++) printf(" %u", in_sheet[c]);
    printf("\n");
    heading("Times the plain C program with the call's tests:");
    for (int j = 0; j < JOBS; j++) row(jobs[j].name, times[j], tested[j]);
    heading("Times the plain C program without any test:");
    for (int j = 0; j < JOBS; j++) row(jobs[j].name, times[j], plains[j]);
#ifdef BUDDY
    heading("Times BuDDy, which tests nothing either:");
    for (int j = 0; j < JOBS; j++)
        if (jobs[j].buddy) row(jobs[j].name, times[j], buddies[j]);
#endif
}

int main(int words_given, char **given) {
    (void)given;
    alone = words_given > 1;
    for (int c = 0; c < SIZES; c++) measure(SIZE, capacities[c], c);
    for (int j = 0; alone && j < JOBS; j++) lines(jobs[j].name, times[j]);
    if (!alone) tables();
    return 0;
}
