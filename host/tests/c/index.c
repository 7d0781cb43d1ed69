/* Makes indexes of the entry in a file and answers questions by the index in another, a number on each line. The third
 * file has a line each: `make 10` (into so many numbers, each 7 before), `row 2`, `value 2 2 1 3`, `heading 2 2 1`,
 * `unit 2 2 1`, or `passage 2 49 REACTION  ` (the pointer's byte, then the keyword to the line's end). A question is
 * asked by all numbers and, where there is one, by the row alone; else than alike the program ends with 3. */
#include "x4.h"

#include <inttypes.h>
#include <stdio.h>
#include <stdlib.h>
#include <string.h>

enum { MOST = 6000 };

static uint8_t entry[1700000];
static uint32_t numbers[MOST], made[MOST];
static size_t length, count;

static void refused(uint64_t word) {
    printf("refused %" PRIu32 " %" PRIu32 " %" PRIu32 " %" PRIu32 "\n", x4_refusal(word), x4_entry_refusal(word),
           x4_entry_record(word), x4_entry_column(word));
}

static void make(size_t room) {
    uint64_t rows[1] = {0};
    for (size_t i = 0; i < room; i++) {
        made[i] = 7;
    }
    uint64_t word = x4_index(entry, length, made, room, rows);
    uint32_t sum = 0;
    for (size_t i = 0; i < room; i++) {
        sum = 65599 * sum + made[i];
    }
    printf("%" PRIu32 " %" PRIu64 " ", sum, rows[0]);
    if (word) {
        refused(word);
    } else {
        puts("made");
    }
}

/* one of the questions by some numbers; what it stores stands in a */
static uint64_t ask(const uint32_t *index, size_t of, const char *line, uint64_t a[8]) {
    unsigned n = 0, b = 0, c = 0, d = 0;
    char question[16];
    sscanf(line, "%15s %u %u %u %u", question, &n, &b, &c, &d);
    if (!strcmp(question, "value")) {
        return x4_index_value(entry, length, index, of, n, b, c, d, a);
    } else if (!strcmp(question, "heading")) {
        return x4_index_heading(entry, length, index, of, n, b, c, a);
    } else if (!strcmp(question, "unit")) {
        return x4_index_unit(entry, length, index, of, n, b, c, a);
    }
    /* behind two numbers and one blank each */
    const char *text = strchr(strchr(strchr(line, ' ') + 1, ' ') + 1, ' ') + 1;
    return x4_index_passage(entry, length, index, of, n, (const uint8_t *)text, strlen(text), (uint8_t)b, a);
}

static void answer(const char *line) {
    unsigned n = 0;
    sscanf(line, "%*s %u", &n);
    if (!strncmp(line, "make ", 5)) {
        make(n);
        return;
    }
    uint64_t before[1] = {9}, a[8] = {9, 9, 9, 9, 9, 9, 9, 9}, alone[8];
    memcpy(alone, a, sizeof a);
    uint64_t word = x4_index_row(numbers, count, n, before);
    if (!strncmp(line, "row ", 4)) {
        if (word) {
            refused(word);
        } else {
            printf("%" PRIu64 "\n", before[0]);
        }
        return;
    }
    uint64_t by_row = word ? word : ask(numbers + 5 * before[0], 5, line, alone);
    word = ask(numbers, count, line, a);
    if (word != by_row || memcmp(a, alone, sizeof a) || (word && a[0] != 9)) {
        exit(3);
    }
    if (word) {
        refused(word);
    } else if (strncmp(line, "value", 5)) {
        printf("%" PRIu64 " %" PRIu64 " %" PRIu64 "\n", a[0], a[1], a[2]);
    } else if (x4_is_number(a)) {
        printf("%s%" PRIu64 "E%" PRId32 " digits %" PRIu32 "\n", x4_negative(a) ? "-" : "", x4_coefficient(a),
               x4_power(a), x4_digits(a));
    } else {
        printf("blank digits %" PRIu32 "\n", x4_digits(a));
    }
}

int main(int files, char **names) {
    if (files != 4 || x4_version() != X4_VERSION) {
        return 2;
    }
    FILE *bytes = fopen(names[1], "rb"), *index = fopen(names[2], "r"), *questions = fopen(names[3], "r");
    if (!bytes || !index || !questions) {
        return 2;
    }
    length = fread(entry, 1, sizeof entry, bytes);
    while (count < MOST && fscanf(index, "%" SCNu32, &numbers[count]) == 1) {
        count++;
    }
    char line[256];
    while (fgets(line, sizeof line, questions)) {
        line[strcspn(line, "\n")] = 0;
        answer(line);
    }
    return 0;
}
