/* Judges a transmission on standard input and prints the seven numbers of the verdict and the ordinal; then the first
 * byte and the length of each entry, the verdict on it, and the sum of the bytes of the copy, or why there is none. */
#include "x4.h"

#include <inttypes.h>
#include <stdio.h>
#include <string.h>

static uint8_t file[17000000], copy[17000000];

/* a verdict; a refused one leaves the totals at 0 */
static void say(uint64_t word, const uint64_t totals[4]) {
    printf("%" PRIu32 " %" PRIu32 " %" PRIu32, x4_entry_refusal(word), x4_entry_record(word), x4_entry_column(word));
    for (int i = 0; i < 4; i++) {
        printf(" %" PRIu64, totals[i]);
    }
    printf(" %" PRIu32 "\n", x4_entry_ordinal(word));
}

int main(void) {
    size_t length = fread(file, 1, sizeof file, stdin);
    uint64_t totals[4] = {0, 0, 0, 0};
    if (x4_version() != X4_VERSION) {
        return 2;
    }
    uint64_t word = x4_judge_file(file, length, totals);
    say(word, totals);
    for (size_t at = 81, n; (n = x4_entry_length(file, length, at)) != 0; at += n) {
        uint64_t own[4] = {0, 0, 0, 0};
        printf("%zu %zu ", at, n);
        word = x4_judge(file + at, n, own);
        say(word, own);
    }
    memset(copy, '#', sizeof copy);
    word = x4_copy_file(file, length, copy, length);
    uint32_t sum = 0;
    for (size_t i = 0; i < length; i++) {
        sum = 65599 * sum + copy[i];
    }
    printf("%" PRIu32 " %" PRIu32 " %" PRIu32 " %" PRIu32 " %" PRIu32 " %" PRIu32 "\n", sum, x4_refusal(word),
           x4_entry_refusal(word), x4_entry_record(word), x4_entry_column(word), x4_entry_ordinal(word));
    return 0;
}
