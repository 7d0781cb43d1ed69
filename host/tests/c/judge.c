/* Judges standard input and prints the seven numbers of the verdict. */
#include "x4.h"

#include <inttypes.h>
#include <stdio.h>

int main(void) {
    static uint8_t entry[1700000];
    uint64_t totals[4] = {0, 0, 0, 0};
    uint64_t word = x4_judge(entry, fread(entry, 1, sizeof entry, stdin), totals);
    if (x4_version() != X4_VERSION) {
        return 2;
    }
    printf("%" PRIu32 " %" PRIu32 " %" PRIu32, x4_entry_refusal(word), x4_entry_record(word), x4_entry_column(word));
    for (int i = 0; i < 4; i++) {
        printf(" %" PRIu64, totals[i]);
    }
    puts("");
    return 0;
}
