/* Answers the questions of a file about the entry in another: a line each, `value 2 2 1 3`, `heading 2 2 1`,
 * `unit 2 2 1`, `copy 2106`, or `passage 2 49 REACTION  ` (the pointer's byte, then the keyword to the line's end). A
 * refused call leaves the array of a value as it was, else the program ends with 3. */
#include "x4.h"

#include <inttypes.h>
#include <stdio.h>
#include <stdlib.h>
#include <string.h>

static uint8_t entry[1700000], copy[1700000];

static void part(const uint64_t p[3]) { printf("%" PRIu64 " %" PRIu64 " %" PRIu64 "\n", p[0], p[1], p[2]); }

static void value(const uint64_t v[8]) {
    if (!x4_is_number(v)) {
        printf("blank digits %" PRIu32 "\n", x4_digits(v));
    } else {
        printf("%s%" PRIu64 "E%" PRId32 " digits %" PRIu32 "\n", x4_negative(v) ? "-" : "", x4_coefficient(v),
               x4_power(v), x4_digits(v));
    }
}

/* the bytes of a buffer in one number */
static uint32_t sum(const uint8_t *bytes, size_t length) {
    uint32_t s = 0;
    for (size_t i = 0; i < length; i++) {
        s = 65599 * s + bytes[i];
    }
    return s;
}

static void answer(size_t length, char *line) {
    unsigned a = 0, b = 0, c = 0, d = 0;
    char question[16];
    sscanf(line, "%15s %u %u %u %u", question, &a, &b, &c, &d);
    uint64_t word = 0, v[8] = {9, 9, 9, 9, 9, 9, 9, 9}, before[8], p[3];
    memcpy(before, v, sizeof v);
    if (!strcmp(question, "value")) {
        word = x4_value(entry, length, a, b, c, d, v);
    } else if (!strcmp(question, "heading")) {
        word = x4_heading(entry, length, a, b, c, p);
    } else if (!strcmp(question, "unit")) {
        word = x4_unit(entry, length, a, b, c, p);
    } else if (!strcmp(question, "passage")) {
        /* behind two numbers and one blank each */
        char *text = strchr(strchr(strchr(line, ' ') + 1, ' ') + 1, ' ') + 1;
        word = x4_passage(entry, length, a, (const uint8_t *)text, strlen(text), (uint8_t)b, p);
    } else {
        memset(copy, '#', sizeof copy);
        word = x4_copy(entry, length, copy, a);
        printf("%" PRIu32 " ", sum(copy, a));
    }
    if (x4_refusal(word)) {
        if (memcmp(before, v, sizeof v)) {
            exit(3);
        }
        printf("refused %" PRIu32 " %" PRIu32 " %" PRIu32 " %" PRIu32 "\n", x4_refusal(word), x4_entry_refusal(word),
               x4_entry_record(word), x4_entry_column(word));
    } else if (!strcmp(question, "value")) {
        value(v);
    } else if (!strcmp(question, "copy")) {
        puts("copied");
    } else {
        part(p);
    }
}

int main(int count, char **names) {
    if (count != 3) {
        return 2;
    }
    FILE *file = fopen(names[1], "rb"), *questions = fopen(names[2], "r");
    if (!file || !questions) {
        return 2;
    }
    size_t length = fread(entry, 1, sizeof entry, file);
    char line[256];
    while (fgets(line, sizeof line, questions)) {
        line[strcspn(line, "\n")] = 0;
        answer(length, line);
    }
    return 0;
}
