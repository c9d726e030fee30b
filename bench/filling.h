/* A table filled with random rules, and calls in it that find all their nodes there, so that they can be made again and again. */
#ifndef FILLING_H
#define FILLING_H
#include <stddef.h>
#include <stdint.h>

enum { SCRATCH = 65536, DIFFER = 5 };
enum { SELECTOR = 23, APPLIED, CHOSEN, FORGOTTEN, RESTRICTED, READ, CONSTANT = 31 }; /* places; 0 to 22 and 30 are for random rules */

struct calls {
    size_t apply_a, apply_b;      /* the two places whose difference is in the place APPLIED */
    size_t case_a, case_b;        /* CASE of the place SELECTOR over these is in CHOSEN */
    size_t forget, forget_f;      /* a place without a feature is in FORGOTTEN */
    size_t restrict_, restrict_f; /* a place with a feature held at 1 is in RESTRICTED */
    size_t largest;               /* the place with the most nodes */
};

extern uint32_t words[139264], scratch[SCRATCH];
extern size_t length, scratch_length; /* as many words as the calls are lent */
extern uint8_t features[16];

uint32_t nodes_in_use(void);
uint32_t nodes_of(size_t place); /* as many as the rule of a place has */
uint32_t chance(uint32_t n);     /* a number below n, the same in every run */
/* A table of this capacity over 16 features of this size, nearly full; how many nodes are in use is the answer. */
uint32_t fill(uint8_t size, size_t capacity, struct calls *c);
/* An open table of this capacity filled with random rules in places 0 to 29 until no more fits. */
uint32_t fill_up(uint8_t size, size_t capacity);
/* The first and the last part of fill, with the place SELECTOR and random rules alone: up to a third of the capacity, and nearly to all. */
void fill_third(uint8_t size, size_t capacity);
void fill_rest(size_t capacity);

/* ---- for tables of either kind */
struct filled {
    uint32_t *words;
    uint32_t (*in_use)(void);                        /* nodes */
    void (*random_call)(size_t first, size_t count); /* for some places */
    uint32_t (*call)(int which, size_t a, size_t b); /* its result goes to the place `which` */
    uint32_t (*worth)(size_t place);                 /* of the result there, as its nodes or those that are new */
};
/* Random calls for some places until the nodes in use are between two numbers, or the turns are over. */
void grow(const struct filled *f, size_t first, size_t count, uint32_t least, uint32_t most);
/* Makes the call whose result is worth the most, of those that leave at most so many nodes in use. */
void largest_call(const struct filled *f, int which, size_t firsts, size_t seconds, size_t most, size_t *a, size_t *b);
#endif
