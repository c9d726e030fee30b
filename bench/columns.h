/* Figures of calls at five sizes of table, printed a row for each call. */
#ifndef COLUMNS_H
#define COLUMNS_H
#include <stddef.h>
#include <stdint.h>

enum { SIZES = 5 };
extern const size_t capacities[SIZES];
extern uint32_t in_use[SIZES]; /* nodes */

/* Ends the program where something does not hold. */
void expect(int holds, const char *what);
/* What the rows below are, and the nodes in use. */
void heading(const char *what);
/* Times over those of the unit, or in microseconds where that is null. */
void row(const char *name, const double *time, const double *unit);
/* For bench/beside, a line for each size: the call, the nodes in use, nanoseconds. */
void lines(const char *name, const double *time);
#endif
