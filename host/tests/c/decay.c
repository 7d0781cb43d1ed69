/* Takes codes under DECAY-DATA apart: decay FILE LIST. The file is an entry; the list has a line each: `code 2 32 1 400`, the
 * code by subentry, pointer and number in a slice of so many bytes; `passage 1 400`, the same of the whole file as a passage;
 * or `apart` and a text. Of a code it prints the run, its places and half-life, and a line for each group, type and energy. Of
 * a refused call nothing may be stored, nothing beside a slice or an array ever, and bytes behind a run stay; if that is not
 * so, the program ends with 3. Groups, types and energies that are not there are asked for, too; if one is given or is not
 * zeros, it ends with 4. */
#include "x4.h"

#include <inttypes.h>
#include <stdio.h>
#include <stdlib.h>
#include <string.h>

enum { ROOM = 2000000, GUARD = 64 };

static uint8_t entry[ROOM], out[ROOM + 2 * GUARD];
static size_t length;

/* an array of numbers between numbers that stay */
typedef struct {
    uint64_t before[4], numbers[15], behind[4];
} Lent;

static Lent lent(void) {
    Lent l;
    memset(&l, 0xa5, sizeof l);
    return l;
}

/* all but the first n of an array are as they were */
static void stays(const Lent *l, size_t n) {
    const Lent fresh = lent();
    if (memcmp(l->before, fresh.before, sizeof fresh.before) || memcmp(l->behind, fresh.behind, sizeof fresh.behind) ||
        memcmp(l->numbers + n, fresh.numbers + n, sizeof fresh.numbers - 8 * n)) {
        exit(3);
    }
}

static void zeros(const Lent *l, size_t n) {
    for (size_t i = 0; i < n; i++) {
        if (l->numbers[i]) {
            exit(4);
        }
    }
}

static void value(const uint64_t v[8]) {
    if (v[4] || v[5] || v[6] || v[7]) {
        exit(3);
    }
    if (x4_is_number(v)) {
        printf(" %s%" PRIu64 "E%" PRId32 " digits 0\n", x4_negative(v) ? "-" : "", x4_coefficient(v), x4_power(v));
    } else {
        puts(" blank digits 0");
    }
}

/* whether a group has this type or energy, which is printed then */
static int type(const uint8_t *run, size_t n, uint32_t group, uint32_t at) {
    Lent place = lent();
    uint64_t there = x4_decay_type(run, n, group, at, place.numbers);
    stays(&place, 2);
    if (there != 1) {
        zeros(&place, 2);
        return 0;
    }
    printf("type %" PRIu64 " %" PRIu64 " [%.*s]\n", place.numbers[0], place.numbers[1], (int)place.numbers[1],
           (const char *)run + place.numbers[0]);
    return 1;
}

static int energy(const uint8_t *run, size_t n, uint32_t group, uint32_t at) {
    Lent place = lent(), v = lent();
    uint64_t there = x4_decay_energy(run, n, group, at, place.numbers, v.numbers);
    stays(&place, 2);
    stays(&v, 8);
    if (there != 1) {
        zeros(&place, 2);
        zeros(&v, 8);
        return 0;
    }
    printf("energy %" PRIu64 " %" PRIu64, place.numbers[0], place.numbers[1]);
    value(v.numbers);
    return 1;
}

static int group(const uint8_t *run, size_t n, uint32_t k) {
    Lent numbers = lent(), abundance = lent();
    uint64_t there = x4_decay_group(run, n, k, numbers.numbers, abundance.numbers);
    stays(&numbers, 4);
    stays(&abundance, 8);
    if (there != 1) {
        zeros(&numbers, 4);
        zeros(&abundance, 8);
        return 0;
    }
    printf("group %" PRIu64 " %" PRIu64 " %" PRIu64 " %" PRIu64, numbers.numbers[0], numbers.numbers[1], numbers.numbers[2],
           numbers.numbers[3]);
    value(abundance.numbers);
    uint32_t types = 0, energies = 0;
    while (type(run, n, k, types + 1)) {
        types++;
    }
    while (energy(run, n, k, energies + 1)) {
        energies++;
    }
    if (types != numbers.numbers[0] || energies != numbers.numbers[1] || type(run, n, k, 0) || energy(run, n, k, 0)) {
        exit(4);
    }
    return 1;
}

static void apart(const uint8_t *run, size_t n) {
    Lent places = lent(), half = lent();
    uint64_t word = x4_decay_head(run, n, places.numbers, half.numbers);
    stays(&places, word ? 0 : 15);
    stays(&half, word ? 0 : 8);
    uint32_t groups = 0;
    if (word) {
        if (x4_refusal(word) != 50 || (word >> 8 & 0xffff)) {
            exit(3);
        }
        printf("no code %" PRIu64 "\n", x4_decay_before(word));
    } else {
        printf("head");
        for (int i = 0; i < 15; i++) {
            printf(" %" PRIu64, places.numbers[i]);
        }
        value(half.numbers);
    }
    while (group(run, n, groups + 1)) {
        groups++;
    }
    if (groups != (word ? 0 : places.numbers[X4_DECAY_GROUPS]) || group(run, n, 0) || type(run, n, groups + 1, 1) ||
        energy(run, n, groups + 1, 1) || type(run, n, UINT32_MAX, UINT32_MAX)) {
        exit(4);
    }
}

/* a code of the entry, or, where there is no subentry, of the file as a passage */
static void code(uint32_t subentry, int pointer, uint32_t n, size_t room) {
    Lent run = lent();
    memset(out, '#', room + 2 * GUARD);
    uint64_t word = pointer < 0 ? x4_decay_in(entry, length, n, out + GUARD, room, run.numbers)
                                : x4_decay(entry, length, subentry, (uint8_t)pointer, n, out + GUARD, room, run.numbers);
    stays(&run, word ? 0 : 1);
    size_t stored = word ? 0 : run.numbers[0];
    for (size_t i = 0; i < room + 2 * GUARD; i++) {
        if ((i < GUARD || i >= GUARD + stored) && out[i] != '#') {
            exit(3);
        }
    }
    if (word) {
        printf("refused %" PRIu32 " %" PRIu32 " %" PRIu32 " %" PRIu32 "\n", x4_refusal(word), x4_entry_refusal(word),
               x4_entry_record(word), x4_entry_column(word));
        return;
    }
    printf("run %zu [%.*s]\n", stored, (int)stored, (const char *)out + GUARD);
    apart(out + GUARD, stored);
}

int main(int files, char **names) {
    if (files != 3 || x4_version() != X4_VERSION) {
        return 2;
    }
    FILE *bytes = fopen(names[1], "rb"), *list = fopen(names[2], "r");
    if (!bytes || !list) {
        return 2;
    }
    length = fread(entry, 1, sizeof entry, bytes);
    char asked[1024];
    while (fgets(asked, sizeof asked, list)) {
        uint32_t subentry, n;
        int pointer;
        size_t room;
        if (sscanf(asked, "code %" SCNu32 " %d %" SCNu32 " %zu", &subentry, &pointer, &n, &room) == 4 && room <= ROOM) {
            code(subentry, pointer, n, room);
        } else if (sscanf(asked, "passage %" SCNu32 " %zu", &n, &room) == 2 && room <= ROOM) {
            code(0, -1, n, room);
        } else if (!strncmp(asked, "apart ", 6)) {
            apart((const uint8_t *)asked + 6, strcspn(asked + 6, "\n"));
        } else {
            return 2;
        }
    }
    return 0;
}
