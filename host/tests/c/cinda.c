/* Asks about the lines of a file: cinda FILE LIST. The list has a line each: `check`, `line 1`, `pieces 1`, or `back 126`,
 * lines written back to a buffer of so many bytes, of which both sums of Adler-32 are printed, whether it is refused or not. Of
 * a refused call nothing may be stored, and nothing beside an array or a buffer ever; if something is, the program ends with
 * 3. Each answered line is asked for alone, too; if it is another, the program ends with 4. */
#include "x4.h"

#include <inttypes.h>
#include <stdio.h>
#include <stdlib.h>
#include <string.h>

enum { ROOM = 2600000, GUARD = 64 };

static uint8_t lines[ROOM], out[ROOM + 2 * GUARD];
static size_t length;

/* an array of numbers between numbers that stay */
typedef struct {
    uint64_t before[4], numbers[14], behind[4];
} Lent;

static Lent lent(void) {
    Lent l;
    memset(&l, 0xa5, sizeof l);
    return l;
}

/* all but the first n of an array are as they were */
static void stays(const Lent *l, size_t n) {
    const Lent fresh = lent();
    if (memcmp(l->before, fresh.before, sizeof fresh.before) || memcmp(l->behind, fresh.behind, sizeof fresh.behind) ||
        memcmp(l->numbers + n, fresh.numbers + n, sizeof fresh.numbers - 8 * n)) {
        exit(3);
    }
}

static void refused(uint64_t word) {
    printf("refused %" PRIu32 " %" PRIu32 " %" PRIu32 "\n", x4_refusal(word), x4_cinda_at_line(word),
           x4_cinda_column(word));
    if (word >> 48 || (word >> 8 & 0xff)) {
        exit(3);
    }
}

static void energy(const uint64_t v[8]) {
    if (v[5] || v[6] || v[7]) {
        exit(3);
    }
    if (x4_is_number(v)) {
        printf(" %s%" PRIu64 "E%" PRId32 " digits %" PRIu32, x4_negative(v) ? "-" : "", x4_coefficient(v), x4_power(v),
               x4_digits(v));
    } else {
        printf(" blank digits %" PRIu32, x4_digits(v));
    }
}

static void line(uint32_t n) {
    Lent numbers = lent(), least = lent(), greatest = lent();
    uint64_t word = x4_cinda_line(lines, length, n, numbers.numbers, least.numbers, greatest.numbers);
    stays(&numbers, word ? 0 : 14);
    stays(&least, word ? 0 : 8);
    stays(&greatest, word ? 0 : 8);
    if (word) {
        refused(word);
        return;
    }
    for (int i = 0; i < 14; i++) {
        printf("%s%" PRIu64, i ? " " : "", numbers.numbers[i]);
    }
    energy(least.numbers);
    energy(greatest.numbers);
    putchar('\n');
    Lent again = lent(), low = lent(), high = lent();
    const uint8_t *alone = lines + (size_t)X4_CINDA_LINE * (n - 1);
    if (x4_cinda_line(alone, X4_CINDA_LINE, 1, again.numbers, low.numbers, high.numbers) ||
        memcmp(&again, &numbers, sizeof again) || memcmp(&low, &least, sizeof low) ||
        memcmp(&high, &greatest, sizeof high)) {
        exit(4);
    }
}

static void pieces(uint32_t n) {
    Lent places = lent();
    uint64_t word = x4_cinda_pieces(lines, length, n, places.numbers);
    stays(&places, word ? 0 : 12);
    if (word) {
        refused(word);
        return;
    }
    for (int i = 0; i < 12; i++) {
        printf("%" PRIu64 " ", places.numbers[i]);
    }
    for (int i = X4_CINDA_REACTION; i <= X4_CINDA_COMMENT; i += 2) {
        printf("[%.*s]", (int)places.numbers[i + 1], (const char *)lines + places.numbers[i]);
    }
    putchar('\n');
}

static void back(size_t room) {
    memset(out, '#', sizeof out);
    uint64_t word = x4_cinda_back(lines, length, out + GUARD, room);
    for (size_t i = 0; i < GUARD; i++) {
        if (out[i] != '#' || out[GUARD + room + i] != '#') {
            exit(3);
        }
    }
    if (word) {
        refused(word);
    }
    uint32_t first = 1, second = 0;
    for (size_t i = 0; i < room; i++) {
        first = (first + out[GUARD + i]) % 65521;
        second = (second + first) % 65521;
    }
    printf("%zu bytes %" PRIu32 " %" PRIu32 "\n", room, first, second);
}

int main(int files, char **names) {
    if (files != 3 || x4_version() != X4_VERSION) {
        return 2;
    }
    FILE *bytes = fopen(names[1], "rb"), *list = fopen(names[2], "r");
    if (!bytes || !list) {
        return 2;
    }
    length = fread(lines, 1, sizeof lines, bytes);
    char asked[64];
    while (fgets(asked, sizeof asked, list)) {
        uint32_t n;
        size_t room;
        if (!strcmp(asked, "check\n")) {
            refused(x4_cinda_check(lines, length));
        } else if (sscanf(asked, "line %" SCNu32, &n) == 1) {
            line(n);
        } else if (sscanf(asked, "pieces %" SCNu32, &n) == 1) {
            pieces(n);
        } else if (sscanf(asked, "back %zu", &room) == 1 && room <= ROOM) {
            back(room);
        } else {
            return 2;
        }
    }
    return 0;
}
