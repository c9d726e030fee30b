/* Looks settings up in sheets through the proved function, and holds each answer against the test's own reader: document
   01's sheets, sheets that are wrong in one point, every cut and every single-byte change of one, random ones, large ones. Then the
   look up of many: each number as the look up of its row, and a refused call that writes nothing. */
#include "lampgrotto.h"
#include "sheet.h"
#include <stdio.h>
#include <string.h>

static uint16_t numbers[SETTINGS];
static struct sheet sheet;
static uint32_t seed = 1;

static uint32_t chance(uint32_t n) {
    seed ^= seed << 13;
    seed ^= seed >> 17;
    seed ^= seed << 5;
    return seed % n;
}

/* ---- answers so far, and how many were not the reader's */
static struct {
    long looked, wrong, taken, newer, bad_sheet, bad_argument;
} tally;

static uint32_t look(const uint8_t *bytes, size_t length, const uint8_t *setting, int count) {
    uint32_t answer = lampgrotto_look_up(bytes, length, setting, count);
    tally.looked++;
    if (answer != expected(bytes, length, setting, count)) tally.wrong++;
    if (answer < 65536) tally.taken++;
    if (answer == 65536 + LAMPGROTTO_NEWER) tally.newer++;
    if (answer == 65536 + LAMPGROTTO_BAD_SHEET) tally.bad_sheet++;
    if (answer == 65536 + LAMPGROTTO_BAD_ARGUMENT) tally.bad_argument++;
    return answer;
}

static void report(const char *name) {
    printf("%s: %ld lookups, %ld wrong; %ld taken, %ld newer, %ld bad sheet, %ld bad argument\n", name, tally.looked, tally.wrong,
           tally.taken, tally.newer, tally.bad_sheet, tally.bad_argument);
    memset(&tally, 0, sizeof tally);
}

/* every setting of the list, where the sheet is taken at all */
static void look_all(const struct sheet *s, const struct list *f) {
    uint8_t setting[FEATURES] = {0};
    if (look(s->bytes, s->length, setting, f->count) >= 65536) return;
    for (size_t i = 1; i < settings_of(f); i++) {
        setting_at(f, i, setting);
        look(s->bytes, s->length, setting, f->count);
    }
}

/* ---- the scope's two whole sheets */
static const uint8_t example[20] = {0, 1, 1, 0, 1, 2, 0, 1, 0, 0, 0, 7, 0, 0, 9, 0, 1, 1, 0, 0};
static const uint8_t constant[13] = {0, 1, 1, 0, 1, 2, 0, 0, 0, 1, 0, 0, 5};

static void documents_sheets(void) {
    static const uint8_t values[4] = {0, 1, 2, 0};
    printf("example: %u %u\n", look(example, 20, values, 1), look(example, 20, values + 1, 1));
    printf("constant: %u %u\n", look(constant, 13, values, 1), look(constant, 13, values + 1, 1));
    printf("bad argument: %u %u %u\n", look(example, 20, values + 2, 1), look(example, 20, values, 0),
           look(constant, 13, values, 2));
    printf("nothing: %u\n", look(example, 0, values, 1));
    const struct list f = {1, {2}};
    const uint16_t seven_nine[2] = {7, 9}, fives[2] = {5, 5};
    write_sheet(&f, seven_nine, &sheet);
    int same = sheet.length == 20 && !memcmp(sheet.bytes, example, 20);
    write_sheet(&f, fives, &sheet);
    printf("written the same: %d %d\n", same, sheet.length == 13 && !memcmp(sheet.bytes, constant, 13));
    report("the document's");
}

static void newer_sheets(void) {
    uint8_t bytes[20];
    memcpy(bytes, example, 20);
    for (int edition = 0; edition < 256; edition++) {
        bytes[2] = edition;
        for (int length = 2; length <= 4; length++) look(bytes, length, bytes, 1);
    }
    report("editions");
}

/* ---- sheets that are wrong in one point: a node of a good sheet of five nodes is another */
static void set_node(int i, uint32_t feature, uint32_t a, uint32_t b) {
    memset(nodes[i], 0, sizeof nodes[i]);
    nodes[i][0] = feature;
    nodes[i][1] = a;
    nodes[i][2] = b;
}

static const struct list three = {3, {2, 2, 2}};
enum { NODE = 65536, OTHER_KIND = 131072 };

static void good_nodes(void) {
    node_count = 5;
    set_node(0, 2, 7, 9);
    set_node(1, 1, NODE + 0, 5);
    set_node(2, 2, 9, 7);
    set_node(3, 1, NODE + 2, NODE + 0);
    set_node(4, 0, NODE + 1, NODE + 3);
}

static void one_point(const char *name, int i, uint32_t feature, uint32_t a, uint32_t b) {
    good_nodes();
    set_node(i, feature, a, b);
    lay_out(&three, NODE + 4, &sheet);
    static const uint8_t zeros[3] = {0};
    printf("%s: %u\n", name, look(sheet.bytes, sheet.length, zeros, 3));
}

static void other_root(const char *name, uint32_t root) {
    good_nodes();
    lay_out(&three, root, &sheet);
    static const uint8_t ones[3] = {1, 1, 1};
    printf("%s: %u\n", name, look(sheet.bytes, sheet.length, ones, 3));
}

static void wrong_points(void) {
    one_point("a good one", 2, 2, 9, 7);
    one_point("equal branches", 2, 2, 7, 7);
    one_point("equal branches to a node", 3, 1, NODE + 2, NODE + 2);
    one_point("twins", 2, 2, 7, 9);
    one_point("a node unreached", 3, 1, NODE + 0, 9);
    one_point("wrong order", 4, 0, NODE + 3, NODE + 1);
    one_point("a branch to the same feature", 3, 2, NODE + 2, NODE + 0);
    one_point("a branch to a lower feature", 3, 2, NODE + 1, NODE + 2);
    one_point("a branch to itself", 1, 1, NODE + 1, NODE + 0);
    one_point("a branch to a later node", 1, 1, NODE + 0, NODE + 2);
    one_point("a branch to no node", 1, 1, NODE + 0, NODE + 5);
    one_point("a branch of a third kind", 1, 1, NODE + 0, OTHER_KIND);
    other_root("the root", NODE + 4);
    other_root("a root that is not the last", NODE + 3);
    other_root("a root that is a phrase", 7);
    other_root("a root that is no node", NODE + 5);
    report("points");
}

/* ---- one sheet, cut at every length, with every byte changed to every other value, with every byte added */
static void every_change(const struct list *f, const uint16_t *rule) {
    static struct sheet good;
    write_sheet(f, rule, &good);
    look_all(&good, f);
    for (size_t length = 0; length < good.length; length++) {
        sheet = good;
        sheet.length = length;
        look_all(&sheet, f);
    }
    for (size_t p = 0; p < good.length; p++) {
        sheet = good;
        for (int change = 1; change < 256; change++) {
            sheet.bytes[p] = good.bytes[p] ^ change;
            look_all(&sheet, f);
        }
    }
    sheet = good;
    sheet.length++;
    for (int more = 0; more < 256; more++) {
        sheet.bytes[good.length] = more;
        look_all(&sheet, f);
    }
}

static void changed_sheets(void) {
    const struct list f = {3, {2, 3, 2}};
    static const uint16_t rule[12] = {7, 9, 9, 7, 9, 7, 7, 9, 300, 300, 1, 7};
    every_change(&f, rule);
    printf("changed: %d nodes, %zu bytes\n", node_count, sheet.length - 1);
    report("every cut and change");
}

/* ---- random rules, each byte of their sheets with one bit changed */
static void random_rule(struct list *f) {
    f->count = 1 + chance(4);
    for (int k = 0; k < f->count; k++) f->size[k] = 2 + chance(4);
    uint32_t phrases = 1 + chance(4);
    for (size_t i = 0; i < settings_of(f); i++) numbers[i] = chance(phrases == 4 ? 65536 : phrases);
}

static void random_sheets(void) {
    for (int round = 0; round < 60; round++) {
        struct list f;
        random_rule(&f);
        write_sheet(&f, numbers, &sheet);
        for (size_t i = 0; i < settings_of(&f); i++) {
            uint8_t setting[FEATURES];
            setting_at(&f, i, setting);
            if (look(sheet.bytes, sheet.length, setting, f.count) != numbers[i]) tally.wrong++;
        }
        static const uint8_t zeros[FEATURES] = {0};
        for (size_t p = 0; p < sheet.length; p++) {
            uint8_t old = sheet.bytes[p];
            sheet.bytes[p] = old ^ 1 << chance(8);
            look(sheet.bytes, sheet.length, zeros, sheet.bytes[4] <= FEATURES ? sheet.bytes[4] : 0);
            sheet.bytes[p] = old;
        }
    }
    report("random");
}

/* ---- five features of size 8, 3,511 different nodes of the last and 585 above them; with one more it is no sheet */
static void large_sheet(int one_more) {
    struct list f = {5, {8, 8, 8, 8, 8}};
    for (size_t i = 0; i < 4096; i++) {
        uint16_t x = i % 3511 + 1;
        for (int v = 0; v < 8; v++) numbers[i * 8 + v] = v == 0 ? x : v == 1 ? x >> 3 : 5;
    }
    if (one_more) numbers[32767] = 60000;
    write_sheet(&f, numbers, &sheet);
    printf("large: %d nodes, %zu bytes\n", node_count, sheet.length);
    for (int i = 0; i < 12; i++) {
        size_t rank = chance(32768);
        uint8_t setting[FEATURES];
        setting_at(&f, rank, setting);
        if (look(sheet.bytes, sheet.length, setting, 5) != (one_more ? 65536 + LAMPGROTTO_BAD_SHEET : numbers[rank])) tally.wrong++;
        size_t p = chance(sheet.length);
        uint8_t old = sheet.bytes[p];
        sheet.bytes[p] ^= 1 << chance(8);
        look(sheet.bytes, sheet.length, setting, 5);
        sheet.bytes[p] = old;
    }
    report("large");
}

/* ---- several settings at once */
enum { ROWS = 40, PAST = 3, OLD = 70000 };
static uint8_t rows[ROWS * FEATURES + 8];

static struct {
    long calls, wrong, numbers, newer, bad_sheet, bad_argument;
} many;

/* how the look up of many must end, by the test's own reader: with no values the reader says what it thinks of the sheet itself */
static uint32_t ending_of(const uint8_t *bytes, size_t length, size_t rows_length, size_t count) {
    uint32_t itself = expected(bytes, length, rows, 0) - 65536;
    if (itself != LAMPGROTTO_BAD_ARGUMENT) return itself;
    size_t n = bytes[4];
    if (rows_length != n * count) return LAMPGROTTO_BAD_ARGUMENT;
    for (size_t i = 0; i < count; i++)
        if (expected(bytes, length, rows + i * n, n) >= 65536) return LAMPGROTTO_BAD_ARGUMENT;
    return LAMPGROTTO_TAKEN;
}

static uint32_t look_many(const uint8_t *bytes, size_t length, size_t rows_length, size_t count) {
    uint32_t words[ROWS + PAST];
    for (size_t i = 0; i < ROWS + PAST; i++) words[i] = OLD + (uint32_t)i;
    uint32_t ending = lampgrotto_look_up_all(bytes, length, rows, rows_length, words, count);
    many.calls++;
    if (ending != ending_of(bytes, length, rows_length, count)) many.wrong++;
    size_t laid = ending == LAMPGROTTO_TAKEN ? count : 0;
    for (size_t i = 0; i < laid; i++) {
        size_t n = bytes[4];
        uint32_t number = expected(bytes, length, rows + i * n, n);
        if (words[i] != number || lampgrotto_look_up(bytes, length, rows + i * n, n) != number) many.wrong++;
    }
    for (size_t i = laid; i < ROWS + PAST; i++)
        if (words[i] != OLD + i) many.wrong++;
    many.numbers += (long)laid;
    if (ending == LAMPGROTTO_NEWER) many.newer++;
    if (ending == LAMPGROTTO_BAD_SHEET) many.bad_sheet++;
    if (ending == LAMPGROTTO_BAD_ARGUMENT) many.bad_argument++;
    return ending;
}

static void report_many(const char *name) {
    printf("%s: %ld calls, %ld wrong; %ld numbers, %ld newer, %ld bad sheet, %ld bad argument\n", name, many.calls, many.wrong,
           many.numbers, many.newer, many.bad_sheet, many.bad_argument);
    memset(&many, 0, sizeof many);
}

/* random settings of the list, one after the other */
static void random_rows(const struct list *f, size_t count) {
    for (size_t i = 0; i < count; i++) setting_at(f, chance((uint32_t)settings_of(f)), rows + i * (size_t)f->count);
}

static void small_rows(void) {
    memcpy(rows, (const uint8_t[6]){1, 0, 1, 1, 0, 2}, 6);
    printf("five rows: %u; six, the last no setting: %u\n", look_many(example, 20, 5, 5), look_many(example, 20, 6, 6));
    printf("no rows: %u; a row and no word: %u; a word and no row: %u\n", look_many(example, 20, 0, 0),
           look_many(example, 20, 1, 0), look_many(example, 20, 0, 1));
    printf("no rows in no sheet: %u\n", look_many(example, 19, 0, 0));
    memcpy(sheet.bytes, example, 20);
    sheet.bytes[2] = 2;
    printf("a newer sheet: %u; with no rows: %u; with a row too many: %u\n", look_many(sheet.bytes, 20, 5, 5),
           look_many(sheet.bytes, 20, 0, 0), look_many(sheet.bytes, 20, 6, 5));
    report_many("small");
}

/* every length near the right one, one value too high in each place of each row, and a bit of the sheet changed */
static void all_rows(const struct list *f) {
    size_t n = (size_t)f->count, count = chance(ROWS + 1);
    random_rows(f, count);
    if (look_many(sheet.bytes, sheet.length, n * count, count) != LAMPGROTTO_TAKEN) many.wrong++;
    for (size_t more = 0; more <= n * count + 1 && more <= 2 * n; more++) {
        look_many(sheet.bytes, sheet.length, n * count + 1 - more, count);
        if (count < ROWS) look_many(sheet.bytes, sheet.length, n * count + more, count + 1);
    }
    for (size_t p = 0; p < n * count; p++) {
        uint8_t old = rows[p];
        rows[p] = (uint8_t)(f->size[p % n] + (int)chance(3) * 83);
        if (look_many(sheet.bytes, sheet.length, n * count, count) != LAMPGROTTO_BAD_ARGUMENT) many.wrong++;
        rows[p] = old;
    }
    for (size_t p = 0; p < sheet.length; p += 1 + chance(9)) {
        uint8_t old = sheet.bytes[p];
        sheet.bytes[p] = old ^ 1 << chance(8);
        look_many(sheet.bytes, sheet.length, n * count, count);
        sheet.bytes[p] = old;
    }
}

static void many_rows(void) {
    small_rows();
    for (int round = 0; round < 60; round++) {
        struct list f;
        random_rule(&f);
        write_sheet(&f, numbers, &sheet);
        all_rows(&f);
    }
    report_many("random rows");
}

int main(void) {
    documents_sheets();
    newer_sheets();
    wrong_points();
    changed_sheets();
    random_sheets();
    large_sheet(0);
    large_sheet(1);
    many_rows();
    return 0;
}
