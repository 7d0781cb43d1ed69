/* Asks about a held entry and a revision: revisions HELD REVISION LIST. The list has a line each: `subentry 2`, or `merge 4212`, the
 * merge in a buffer of so many bytes, of which both sums of Adler-32 are printed, whether it is refused or not. Of a part that is
 * handed out the sums are printed, too. Nothing may be stored beside an array or a buffer, bytes behind a merge stay, a refused call
 * stores nothing, and with 63 alone the merge's bytes are blanks; if that is not so, the program ends with 3. */
#include "x4.h"

#include <inttypes.h>
#include <stdio.h>
#include <stdlib.h>
#include <string.h>

enum { ROOM = 2000000, GUARD = 64 };

static uint8_t held[ROOM], revision[ROOM], out[2 * ROOM + 2 * GUARD];
static size_t held_length, revision_length;

/* an array of numbers between numbers that stay */
typedef struct {
    uint64_t before[4], numbers[3], behind[4];
} Lent;

static Lent lent(void) {
    Lent l;
    memset(&l, 0xa5, sizeof l);
    return l;
}

/* all but the first n of an array are as they were */
static void stays(const Lent *l, size_t n) {
    const Lent fresh = lent();
    if (memcmp(l->before, fresh.before, sizeof fresh.before) || memcmp(l->behind, fresh.behind, sizeof fresh.behind) ||
        memcmp(l->numbers + n, fresh.numbers + n, sizeof fresh.numbers - 8 * n)) {
        exit(3);
    }
}

static void refused(uint64_t word) {
    printf("refused %" PRIu32 " %" PRIu32 " %" PRIu32 " %" PRIu32 " %" PRIu32, x4_refusal(word), x4_entry_refusal(word),
           x4_entry_record(word), x4_entry_column(word), x4_revision_which(word));
}

static void sums(const uint8_t *bytes, size_t n) {
    uint32_t first = 1, second = 0;
    for (size_t i = 0; i < n; i++) {
        first = (first + bytes[i]) % 65521;
        second = (second + first) % 65521;
    }
    printf(" %" PRIu32 " %" PRIu32 "\n", first, second);
}

static void subentry(uint32_t n) {
    Lent part = lent();
    uint64_t word = x4_subentry(held, held_length, revision, revision_length, n, part.numbers);
    stays(&part, word ? 0 : 3);
    if (word) {
        refused(word);
        putchar('\n');
        return;
    }
    printf("part %" PRIu64 " %" PRIu64 " %" PRIu64, part.numbers[0], part.numbers[1], part.numbers[2]);
    if (part.numbers[0] != X4_HELD && part.numbers[0] != X4_REVISION) {
        exit(3);
    }
    const uint8_t *holder = part.numbers[0] == X4_HELD ? held : revision;
    sums(holder + part.numbers[1], part.numbers[2]);
}

static void merge(size_t room) {
    memset(out, '#', sizeof out);
    Lent merged = lent();
    uint64_t word = x4_merge(held, held_length, revision, revision_length, out + GUARD, room, merged.numbers);
    int stored = !word || x4_refusal(word) == 63;
    stays(&merged, stored ? 1 : 0);
    size_t length = stored ? (size_t)merged.numbers[0] : 0;
    if (length > room) {
        exit(3);
    }
    for (size_t i = 0; i < sizeof out; i++) {
        int inside = i >= GUARD && i < GUARD + length;
        if ((!inside && out[i] != '#') || (inside && word && out[i] != ' ')) {
            exit(3);
        }
    }
    if (word) {
        refused(word);
        printf(" %zu", length);
    } else {
        printf("merged %zu", length);
    }
    sums(out + GUARD, room);
}

static size_t bytes_of(const char *name, uint8_t *bytes) {
    FILE *file = fopen(name, "rb");
    if (!file) {
        exit(2);
    }
    size_t length = fread(bytes, 1, ROOM, file);
    fclose(file);
    return length;
}

int main(int files, char **names) {
    if (files != 4 || x4_version() != X4_VERSION) {
        return 2;
    }
    held_length = bytes_of(names[1], held);
    revision_length = bytes_of(names[2], revision);
    FILE *list = fopen(names[3], "r");
    if (!list) {
        return 2;
    }
    char asked[64];
    while (fgets(asked, sizeof asked, list)) {
        uint32_t n;
        size_t room;
        if (sscanf(asked, "subentry %" SCNu32, &n) == 1) {
            subentry(n);
        } else if (sscanf(asked, "merge %zu", &room) == 1 && room <= 2 * ROOM) {
            merge(room);
        } else {
            return 2;
        }
    }
    return 0;
}
