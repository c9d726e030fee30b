/* The calls of a rule table that is filled, each a job to be timed. No job adds a node, so that it can be done again and again. */
#ifndef RULE_JOBS_H
#define RULE_JOBS_H
#include "filling.h"

extern struct calls at;
extern uint32_t out[17];
extern uint8_t setting[16], sheet[102428]; /* the sheet is that of the largest rule */
extern size_t sheet_length;

/* The table filled, with what the jobs need; the nodes in use. */
uint32_t prepare(uint8_t size, size_t capacity);

void library_look_up(void);
void library_constant(void);
void library_literal(void);
void library_apply(void);
void library_case(void);
void library_forget(void);
void library_restrict(void);
void library_count(void);
void library_next(void);
void library_write(void);
void library_read(void);
#endif
