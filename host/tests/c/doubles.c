/* Asks for the values of the entry in a file as doubles. The second file is an index, a number on each line, and the third
 * has a line each: `table 2 2` (a subentry and a section: every value in order), `value 2 2 1 3` (in full), `index 2 2 1 3`
 * (by the index and, where there is one, by the row alone), `field      1.45-1` (the field to the line's end), or
 * `decimal 1 145 -3` (negative, coefficient, power).
 *
 * Each value of a table is asked for by the decimal of the walk, by the field, by an index of its own and, in a short entry,
 * in full; where two of these differ the program ends with 4. Where a word does not fit to what is stored, it ends with
 * 3. */
#include "x4.h"

#include <inttypes.h>
#include <stdio.h>
#include <stdlib.h>
#include <string.h>

enum { MOST = 6000, RECORD = 81 };

static uint8_t entry[1700000];
static uint32_t numbers[MOST], own[MOST];
static size_t length, count, own_count;

/* what a call says: the bits of the double, zeros where none is stored, and its word */
typedef struct {
    uint64_t bits, word;
} Said;

static Said pair(double x, uint64_t word) {
    Said said = {0, word};
    memcpy(&said.bits, &x, sizeof x);
    return said;
}

/* a number that no call stores here */
static const double before = -1.2345e99;

/* a double is stored where the word says so, and nowhere else */
static Said stored(const double x[1], uint64_t word) {
    if ((x4_double_kind(word) == 1) == (pair(x[0], 0).bits == pair(before, 0).bits)) {
        exit(3);
    }
    return pair(x4_double_kind(word) == 1 ? x[0] : 0, word);
}

static Said in_full(uint32_t n, uint32_t section, uint32_t line, uint32_t column) {
    double x[1] = {before};
    uint64_t word = x4_double(entry, length, n, section, line, column, x);
    return stored(x, word);
}

static Said by_index(const uint32_t *index, size_t of, uint32_t n, uint32_t section, uint32_t line, uint32_t column) {
    double x[1] = {before};
    uint64_t word = x4_index_double(entry, length, index, of, n, section, line, column, x);
    return stored(x, word);
}

static Said of_field(const uint8_t *field, size_t columns) {
    double x[1] = {before};
    uint64_t word = x4_read_double(field, columns, x);
    return stored(x, word);
}

/* by the decimal of a value that was stored; the digits are the value's */
static Said of_value(const uint64_t v[8]) {
    if (!x4_is_number(v)) {
        return pair(0, 0);
    }
    double x = x4_as_double((uint32_t)v[1], v[2], x4_power(v));
    uint64_t kind = x4_as_double_kind((uint32_t)v[1], v[2], x4_power(v));
    /* the test of the header's loop tells the same */
    if ((x == 0 && v[2] != 0) != (kind == 2)) {
        exit(3);
    }
    return pair(x, kind << 48 | v[4] << 56);
}

static int same(Said a, Said b) { return a.bits == b.bits && a.word == b.word; }

static void say(Said said) {
    uint32_t kind = x4_double_kind(said.word), digits = x4_double_digits(said.word);
    if (kind > 2 || (kind != 1 && said.bits) || (x4_refusal(said.word) && (kind || digits))) {
        exit(3);
    }
    if (x4_refusal(said.word)) {
        printf("refused %" PRIu32 " %" PRIu32 " %" PRIu32 " %" PRIu32 "\n", x4_refusal(said.word),
               x4_entry_refusal(said.word), x4_entry_record(said.word), x4_entry_column(said.word));
    } else if (kind == 1) {
        printf("double %016" PRIX64 " digits %" PRIu32 "\n", said.bits, digits);
    } else {
        printf("%s digits %" PRIu32 "\n", kind ? "decimal" : "blank", digits);
    }
}

/* every value of a table: the loop of a fitting code */
static void table(uint32_t n, uint32_t section) {
    uint64_t place[3], value[8];
    uint32_t walk[5] = {0};
    uint64_t word = x4_walk(entry, length, n, section, walk);
    if (word) {
        say(pair(0, word));
    }
    while (x4_walk_next(entry, length, walk, place, value), place[0]) {
        uint32_t line = (uint32_t)place[1], column = (uint32_t)place[2];
        Said said = of_value(value);
        size_t k = (walk[1] + 5) / 6, record = walk[0] + (line + 1) * k + (column - 1) / 6;
        if (!same(said, of_field(entry + record * RECORD + 11 * ((column - 1) % 6), 11)) ||
            !same(said, by_index(own, own_count, n, section, line, column)) ||
            (length <= 100 * RECORD && !same(said, in_full(n, section, line, column)))) {
            exit(4);
        }
        printf("%" PRIu32 " %" PRIu32 " ", line, column);
        say(said);
    }
    puts("done");
}

/* by all numbers and, where there is one, by the row alone */
static void index_line(uint32_t n, uint32_t section, uint32_t line, uint32_t column) {
    uint64_t before[1];
    Said said = by_index(numbers, count, n, section, line, column);
    if (x4_index_row(numbers, count, n, before) == 0 &&
        !same(said, by_index(numbers + 5 * before[0], 5, n, section, line, column))) {
        exit(4);
    }
    say(said);
}

int main(int files, char **names) {
    if (files != 4 || x4_version() != X4_VERSION) {
        return 2;
    }
    FILE *bytes = fopen(names[1], "rb"), *index = fopen(names[2], "r"), *lines = fopen(names[3], "r");
    if (!bytes || !index || !lines) {
        return 2;
    }
    length = fread(entry, 1, sizeof entry, bytes);
    while (count < MOST && fscanf(index, "%" SCNu32, &numbers[count]) == 1) {
        count++;
    }
    uint64_t rows[1] = {0}, coefficient;
    x4_index(entry, length, own, MOST, rows);
    own_count = 5 * rows[0];
    char text[256];
    while (fgets(text, sizeof text, lines)) {
        uint32_t n, section, line, column;
        int32_t power;
        text[strcspn(text, "\n")] = 0;
        if (sscanf(text, "table %" SCNu32 " %" SCNu32, &n, &section) == 2) {
            table(n, section);
        } else if (sscanf(text, "value %" SCNu32 " %" SCNu32 " %" SCNu32 " %" SCNu32, &n, &section, &line, &column) == 4) {
            say(in_full(n, section, line, column));
        } else if (sscanf(text, "index %" SCNu32 " %" SCNu32 " %" SCNu32 " %" SCNu32, &n, &section, &line, &column) == 4) {
            index_line(n, section, line, column);
        } else if (!strncmp(text, "field ", 6)) {
            say(of_field((const uint8_t *)text + 6, strlen(text + 6)));
        } else if (sscanf(text, "decimal %" SCNu32 " %" SCNu64 " %" SCNd32, &n, &coefficient, &power) == 3) {
            say(pair(x4_as_double(n, coefficient, power), x4_as_double_kind(n, coefficient, power) << 48));
        } else {
            return 2;
        }
    }
    return 0;
}
