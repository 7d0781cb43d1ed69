/* Judges an entry on standard input, or a transmission where the first record is TRANS, and prints the seven numbers of
 * the verdict and the ordinal; below them the facts of the refusal, and the expected characters between brackets. */
#include "x4.h"

#include <inttypes.h>
#include <stdio.h>
#include <string.h>

static uint8_t file[17000000];

int main(void) {
    size_t length = fread(file, 1, sizeof file, stdin);
    uint64_t totals[4] = {0, 0, 0, 0}, facts[3];
    uint8_t characters[8];
    if (x4_version() != X4_VERSION) {
        return 2;
    }
    int transmission = length >= 11 && !memcmp(file, "TRANS      ", 11);
    uint64_t word = (transmission ? x4_explain_file : x4_explain)(file, length, totals, facts, characters);
    printf("%" PRIu32 " %" PRIu32 " %" PRIu32, x4_entry_refusal(word), x4_entry_record(word), x4_entry_column(word));
    for (int i = 0; i < 4; i++) {
        printf(" %" PRIu64, totals[i]);
    }
    printf(" %" PRIu32 "\n%" PRIu64 " %" PRIu64 " %" PRIu64 " [%.8s]\n", x4_entry_ordinal(word), facts[0], facts[1],
           facts[2], (const char *)characters);
    return 0;
}
