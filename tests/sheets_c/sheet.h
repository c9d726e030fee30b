/* What the test's own writer and reader of sheets share. Neither knows anything of the proved code. */
#ifndef SHEET_H
#define SHEET_H

#include <stddef.h>
#include <stdint.h>

enum { FEATURES = 16, NODES = 8192, SETTINGS = 1 << 20, BYTES = 200000 };

struct list {
    int count;
    int size[FEATURES];
};

struct sheet {
    size_t length;
    uint8_t bytes[BYTES];
};

/* ---- writer.c: a rule is the table of its numbers, in order of the settings */
extern uint32_t nodes[NODES][9]; /* the feature, then a word for each branch: a phrase, or 65,536 + a node */
extern int node_count;

size_t settings_of(const struct list *f);
void setting_at(const struct list *f, size_t index, uint8_t *setting);

/* the sheet of the nodes as they are, good or not */
void lay_out(const struct list *f, uint32_t root, struct sheet *s);

/* the sheet of the rule */
void write_sheet(const struct list *f, const uint16_t *numbers, struct sheet *s);

/* ---- reader.c: what the lookup must answer, by a reader that takes the sheet apart section by section */
uint32_t expected(const uint8_t *bytes, size_t length, const uint8_t *setting, size_t setting_length);

#endif
