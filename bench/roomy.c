/* Capacity by use: each call in a table of capacity 300 that is nearly full, and in one of 4,096 with the very same content. A call should
   cost what it does in the small table and the test of the large one, which a look up there is; choose, less and lowest test two tables.
   No scratch is lent. */
#include "columns.h"
#include "cost_jobs.h"
#include "lampgrotto.h"
#include "rule_jobs.h"
#include "timing.h"
#include <stdio.h>
#include <string.h>

enum { SMALL = 300, LARGE = 4096 };

static const struct job {
    const char *name;
    void (*call)(void);
    int tests; /* 1 the rule table, 2 the cost table, 3 both */
} jobs[] = {{"look up", library_look_up, 1},
            {"constant", library_constant, 1},
            {"literal", library_literal, 1},
            {"apply", library_apply, 1},
            {"CASE", library_case, 1},
            {"forget", library_forget, 1},
            {"restrict", library_restrict, 1},
            {"count", library_count, 1},
            {"next", library_next, 1},
            {"write", library_write, 1},
            {"read", library_read, 1},
            {"cost look up", library_cost_look_up, 2},
            {"cost constant", library_cost_constant, 2},
            {"price list", library_price, 2},
            {"add", library_add, 2},
            {"smaller", library_smaller, 2},
            {"scale", library_scale, 2},
            {"choose", library_choose, 3},
            {"less", library_less, 3},
            {"lowest", library_lowest, 3}};
enum { JOBS = sizeof jobs / sizeof *jobs, RULE_JOBS = 11 };

static double small[JOBS], large[JOBS];

/* the same content at a larger capacity: what is in use stands where it stood, and the rest is 0 (docs/SOUND.md) */
static void widen(uint32_t *t) {
    t[1] = LARGE;
    memset(t + 8192 + 16 * t[19], 0, (32 * LARGE - 16 * t[19]) * sizeof *t);
}

static void measure(int from, int to, double *times) {
    scratch_length = 0;
    for (int j = from; j < to; j++) {
        uint64_t before = sink;
        jobs[j].call();
        expect(sink == before, jobs[j].name);
    }
    for (int turn = 0; turn < 2; turn++)
        for (int j = from; j < to; j++) better(&times[j], jobs[j].call);
}

static void print(int j) {
    double test = (jobs[j].tests & 1 ? large[0] : 0) + (jobs[j].tests & 2 ? large[RULE_JOBS] : 0);
    printf("| %s | %.1f | %.1f | %.2f |\n", jobs[j].name, small[j] / 1000, large[j] / 1000, large[j] / (test + small[j]));
}

int main(void) {
    uint32_t rules = prepare(8, SMALL);
    measure(0, RULE_JOBS, small);
    widen(words);
    length = LAMPGROTTO_WORDS(LARGE);
    expect(nodes_in_use() == rules, "widen");
    measure(0, RULE_JOBS, large);
    uint32_t of_costs = prepare_costs(8, SMALL);
    measure(RULE_JOBS, JOBS, small);
    uint32_t beside = nodes_in_use();
    widen(words);
    widen(costs);
    length = LAMPGROTTO_WORDS(LARGE);
    expect(nodes_in_use() == beside && cost_nodes_in_use() == of_costs, "widen");
    measure(RULE_JOBS, JOBS, large);
    printf("%u nodes of rules in use; of costs %u, with %u of rules beside\n\n", rules, of_costs, beside);
    printf("| | us at capacity %d | us at %d | over a look up there and the time at %d |\n|---|---|---|---|\n", SMALL, LARGE, SMALL);
    for (int j = 0; j < JOBS; j++) print(j);
    return 0;
}
