/* Times as the benchmarks take them. */
#ifndef TIMING_H
#define TIMING_H
#include <stddef.h>
#include <stdint.h>
/* The processor time of this program, in nanoseconds: what else the machine does does not count. */
double now(void);
/* The time of one turn of the job in nanoseconds: the best of fifteen rounds, each long enough to be told from the clock's steps. */
double best(void (*job)(void));
/* The same, if it is better than the time that is kept; 0 is none. */
void better(double *kept, void (*job)(void));
/* The sum of the words, which the compiler may not leave out. */
void sum_words(const uint32_t *t, size_t n);
extern volatile uint64_t sink;
#endif
