#include "columns.h"
#include <stdio.h>
#include <stdlib.h>

const size_t capacities[SIZES] = {16, 64, 256, 1024, 4096};
uint32_t in_use[SIZES];

void expect(int holds, const char *what) {
    if (holds) return;
    printf("%s: wrong\n", what);
    exit(1);
}

void heading(const char *what) {
    printf("\n%s\n\n| nodes in use |", what);
    for (int c = 0; c < SIZES; c++) printf(" %u |", in_use[c]);
    printf("\n|---|---|---|---|---|---|\n");
}

void row(const char *name, const double *time, const double *unit) {
    printf("| %s |", name);
    for (int c = 0; c < SIZES; c++) {
        double x = time[c] / (unit ? unit[c] : 1000);
        printf(x < 100 ? " %.1f |" : " %.0f |", x);
    }
    printf("\n");
    fflush(stdout);
}

void lines(const char *name, const double *time) {
    for (int c = 0; c < SIZES; c++) printf("%s\t%u\t%.1f\n", name, in_use[c], time[c]);
}
