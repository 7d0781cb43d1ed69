/* Reads each line of standard input as a number field and prints what it says and the count of its digits; a number is
 * written again. A refused call leaves the array as it was, else the program ends with 3. */
#include "x4.h"

#include <inttypes.h>
#include <stdio.h>
#include <string.h>

int main(void) {
    char line[64];
    while (fgets(line, sizeof line, stdin)) {
        size_t length = strcspn(line, "\n");
        uint64_t v[8] = {9, 9, 9, 9, 9, 9, 9, 9}, before[8];
        memcpy(before, v, sizeof v);
        uint64_t word = x4_read_number((const uint8_t *)line, length, v);
        if (x4_refusal(word)) {
            if (memcmp(before, v, sizeof v)) {
                return 3;
            }
            printf("refused %" PRIu32 "\n", x4_refusal(word));
        } else if (!x4_is_number(v)) {
            printf("blank digits %" PRIu32 "\n", x4_digits(v));
        } else {
            uint8_t out[11];
            uint32_t done = x4_write_number((uint32_t)x4_negative(v), x4_coefficient(v), x4_power(v), out, 11);
            printf("%s%" PRIu64 "E%" PRId32 " digits %" PRIu32 " %" PRIu32 " '%.11s'\n", x4_negative(v) ? "-" : "",
                   x4_coefficient(v), x4_power(v), x4_digits(v), done, (const char *)out);
        }
    }
    return 0;
}
