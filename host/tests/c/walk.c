/* Goes through tables of the entry in a file. The second file has a line each: `table 2 2` (a subentry and a section: its
 * values in order, each on a line), `from 19 3 2 1 1` (a walk put together by hand, and what it gives, 50 values at the
 * most), or `forgotten 2 2` (a table as in the first, by a program that does not look at the refusal, and how many values
 * it is given). A walk that is done is asked a hundred times more; if it then says otherwise, the program ends with 3.
 * In a short entry each value of a table is also asked for; if it is another, the program ends with 4. */
#include "x4.h"

#include <inttypes.h>
#include <stdio.h>
#include <string.h>

static uint8_t entry[1700000];
static size_t length;

static void given(uint64_t word, const uint64_t place[3], const uint64_t v[8]) {
    printf("%" PRIu64 " %" PRIu64 " ", place[1], place[2]);
    if (word) {
        printf("refused %" PRIu64 "\n", word);
    } else if (x4_is_number(v)) {
        printf("%s%" PRIu64 "E%" PRId32 " digits %" PRIu32 "\n", x4_negative(v) ? "-" : "", x4_coefficient(v),
               x4_power(v), x4_digits(v));
    } else {
        printf("blank digits %" PRIu32 "\n", x4_digits(v));
    }
}

/* done, and staying so: nothing but three zeros is stored */
static int stays(uint32_t walk[5]) {
    uint32_t before[5];
    memcpy(before, walk, sizeof before);
    for (int i = 0; i < 100; i++) {
        static const uint64_t zeros[3], nines[8] = {9, 9, 9, 9, 9, 9, 9, 9};
        uint64_t place[3] = {9, 9, 9}, value[8];
        memcpy(value, nines, sizeof value);
        uint64_t word = x4_walk_next(entry, length, walk, place, value);
        if (word || memcmp(place, zeros, sizeof place) || memcmp(value, nines, sizeof value) ||
            memcmp(walk, before, sizeof before)) {
            return 0;
        }
    }
    return 1;
}

/* whether the full question gives this value; each judges, so a long entry is not asked */
static int is_answer(uint32_t n, uint32_t section, uint64_t word, const uint64_t place[3], const uint64_t v[8]) {
    uint64_t asked[8];
    return length > 100 * 81 ||
           (!word && !x4_value(entry, length, n, section, (uint32_t)place[1], (uint32_t)place[2], asked) &&
            !memcmp(asked, v, sizeof asked));
}

/* how many values the loop of the header gives without a look at the word, 1,000 at the most */
static int forgotten(uint32_t n, uint32_t section) {
    uint64_t place[3], value[8];
    uint32_t walk[5] = {0};
    int values = 0;
    x4_walk(entry, length, n, section, walk);
    while (values < 1000 && (x4_walk_next(entry, length, walk, place, value), place[0])) {
        values++;
    }
    return values;
}

int main(int files, char **names) {
    if (files != 3 || x4_version() != X4_VERSION) {
        return 2;
    }
    FILE *bytes = fopen(names[1], "rb"), *lines = fopen(names[2], "r");
    if (!bytes || !lines) {
        return 2;
    }
    length = fread(entry, 1, sizeof entry, bytes);
    char line[128];
    while (fgets(line, sizeof line, lines)) {
        uint64_t place[3], value[8], word;
        uint32_t walk[5] = {0}, n = 0, section = 0;
        int most = 50, table = 0;
        if (sscanf(line, "forgotten %" SCNu32 " %" SCNu32, &n, &section) == 2) {
            printf("%d values\n", forgotten(n, section));
            continue;
        }
        if (sscanf(line, "table %" SCNu32 " %" SCNu32, &n, &section) == 2) {
            most = 1000000;
            table = 1;
            word = x4_walk(entry, length, n, section, walk);
            if (word) {
                printf("refused %" PRIu32 " %" PRIu32 " %" PRIu32 " %" PRIu32 "\n", x4_refusal(word),
                       x4_entry_refusal(word), x4_entry_record(word), x4_entry_column(word));
            }
        } else if (sscanf(line, "from %" SCNu32 " %" SCNu32 " %" SCNu32 " %" SCNu32 " %" SCNu32, &walk[0], &walk[1],
                          &walk[2], &walk[3], &walk[4]) != 5) {
            return 2;
        }
        while (most-- && (word = x4_walk_next(entry, length, walk, place, value), place[0])) {
            given(word, place, value);
            if (table && !is_answer(n, section, word, place, value)) {
                return 4;
            }
        }
        if (most >= 0) {
            puts("done");
            if (!stays(walk)) {
                return 3;
            }
        }
    }
    return 0;
}
