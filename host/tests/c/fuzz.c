/* Asks every call about mutated entries, pairs and transmissions of them and lines, and checks what holds of every answer:
 * fuzz SEED ROUNDS FILE..
 *
 * Each buffer ends where a page begins that may not be touched (in every other round it begins behind one), so that a
 * byte read or written outside it ends the program, although the archive itself is not compiled with sanitizers. Every
 * round has a seed of its own; a failure names it, and `fuzz THAT-SEED 1 FILE..` brings it back. */
#define _DEFAULT_SOURCE
#include "x4.h"

#include <inttypes.h>
#include <stdio.h>
#include <stdlib.h>
#include <string.h>
#include <sys/mman.h>
#include <unistd.h>

enum { RECORD = 81, MOST = 20000 * RECORD, ROOM = 1 << 21 };

static uint64_t state, seed;

static uint64_t bits(void) {
    state += UINT64_C(0x9E3779B97F4A7C15);
    uint64_t x = state;
    x = (x ^ (x >> 30)) * UINT64_C(0xBF58476D1CE4E5B9);
    x = (x ^ (x >> 27)) * UINT64_C(0x94D049BB133111EB);
    return x ^ (x >> 31);
}

static size_t below(size_t end) { return (size_t)(bits() % end); }

static void check(int holds, const char *what) {
    if (!holds) {
        printf("seed %" PRIu64 ": %s\n", seed, what);
        exit(1);
    }
}

/* ---- buffers between pages that may not be touched */

typedef struct {
    uint8_t *pages;
    uint8_t *bytes;
    size_t length;
} Buffer;

static Buffer fenced(void) {
    size_t page = (size_t)sysconf(_SC_PAGESIZE);
    uint8_t *all = mmap(NULL, ROOM + 2 * page, PROT_NONE, MAP_PRIVATE | MAP_ANONYMOUS, -1, 0);
    check(all != MAP_FAILED && !mprotect(all + page, ROOM, PROT_READ | PROT_WRITE), "no memory");
    return (Buffer){all + page, all + page, 0};
}

/* so many bytes, against the page behind them or the one before them */
static void lay(Buffer *b, size_t length) {
    b->length = length;
    b->bytes = seed % 2 ? b->pages + (ROOM - length) : b->pages;
}

static void fill(Buffer *b, const uint8_t *bytes, size_t length) {
    lay(b, length);
    memcpy(b->bytes, bytes, length);
}

/* ---- inputs */

static uint8_t work[ROOM];

/* another number in a system record, the first from a byte on that opens a section or a subentry: a count, or the
 * number of the subentry in both its places */
static void renumber(size_t n, size_t at) {
    static const char *opens[] = {"BIB        ", "COMMON     ", "DATA       ", "SUBENT     "};
    for (; at + RECORD <= n; at += RECORD) {
        for (int i = 0; i < 4; i++) {
            if (memcmp(work + at, opens[i], 11)) continue;
            if (i < 3) {
                memcpy(work + at + 11 * (1 + below(2)), below(2) ? "          0" : "99999999999", 11);
            } else {
                memcpy(work + at + 19, "000", 3);
                memcpy(work + at + 71, "000", 3);
            }
            return;
        }
    }
}

/* changes the first n bytes of it, up to three times */
static size_t mutate(size_t n) {
    static const char *names[] = {"ENTRY      ", "ENDENTRY   ", "SUBENT     ", "NOSUBENT   ", "ENDSUBENT  ",
                                  "BIB        ", "NOBIB      ", "ENDBIB     ", "COMMON     ", "NOCOMMON   ",
                                  "ENDCOMMON  ", "DATA       ", "NODATA     ", "ENDDATA    ", "           ",
                                  "     1.45-1", "   1.+99999", "          2", "FLAG       ", "DECAY-FLAG1",
                                  "(2.) TEXT  ", "2.         ", "     2.E 00", "TRANS      ",
                                  "ENDTRANS   "};
    static const char likely[] = " 0123456789+-.EA\n";
    for (size_t times = below(4); times > 0 && n > RECORD; times--) {
        size_t records = n / RECORD, at = below(n), a = below(records) * RECORD, b = below(records) * RECORD;
        switch (below(11)) {
        case 0: work[at] = (uint8_t)bits(); break;
        case 1: work[at] = (uint8_t)likely[below(sizeof likely - 1)]; break;
        case 2: memmove(work + a, work + b, RECORD); break;
        case 3: memmove(work + a, work + a + RECORD, n - a - RECORD); n -= RECORD; break;
        case 4:
            if (n + RECORD <= MOST) {
                memmove(work + a + RECORD, work + a, n - a);
                n += RECORD;
            }
            break;
        case 5: memcpy(work + a + 11 * below(6), names[below(sizeof names / sizeof *names)], 11); break;
        case 6: n = below(6) ? n - RECORD : at; break;
        case 7: memmove(work + a + 11 * below(6), work + a + 11 * below(6), 11); break; /* a heading repeated */
        case 8: renumber(n, a); break;
        case 9: work[a + 11 * below(6) + 10] = (uint8_t) "123456789ABCXYZ"[below(15)]; break; /* a pointer */
        default: work[at] ^= (uint8_t)(1u << below(8)); break;
        }
    }
    return n;
}

/* a record with a text, blanks behind it */
static size_t add_record(size_t n, const char *text) {
    memset(work + n, ' ', RECORD - 1);
    memcpy(work + n, text, strlen(text));
    work[n + RECORD - 1] = '\n';
    return n + RECORD;
}

/* one of the files behind n bytes, its length at most `most` */
static size_t add_file(size_t n, size_t most, size_t count, char **names) {
    FILE *file = fopen(names[below(count)], "rb");
    check(file != NULL, "no such file");
    n += fread(work + n, 1, most, file);
    fclose(file);
    return n;
}

/* TRANS, one to four entries, ENDTRANS; then changes in any place, and in half of the rounds in these two records */
static size_t transmission(size_t count, char **names) {
    char end[32];
    size_t entries = 1 + below(4), n = add_record(0, "TRANS             X001   20240105");
    for (size_t i = 0; i < entries; i++) {
        n = add_file(n, ROOM / 8, count, names);
    }
    snprintf(end, sizeof end, "ENDTRANS   %11zu", below(8) ? entries : below(5));
    n = add_record(n, end);
    if (below(2)) {
        work[below(2) ? below(RECORD) : n - 1 - below(RECORD)] = (uint8_t) " 01AZa.-#\n"[below(10)];
    }
    return below(3) ? mutate(n) : n;
}

/* ---- what holds of every answer */

static uint64_t refusals[64], asked;

/* the arrays that calls are lent, against a page too, and what stands in them before */
static Buffer lent;

static uint64_t *lend(size_t numbers) {
    if (!lent.pages) {
        lent = fenced();
    }
    lay(&lent, 8 * numbers);
    memset(lent.bytes, 0xa5, lent.length);
    return (uint64_t *)(void *)lent.bytes;
}

static void untouched(uint64_t word) {
    for (size_t i = 0; i < lent.length && x4_refusal(word); i++) {
        check(lent.bytes[i] == 0xa5, "a refused call stores nothing");
    }
}

static void told(uint64_t word, uint64_t verdict, const char *numbers) {
    uint32_t n = x4_refusal(word);
    asked++;
    refusals[n]++;
    check(n == 0 || strchr(numbers, (int)n), "a refusal that the question does not have");
    check((n == 31) == (verdict != 0), "31 exactly where the entry is refused");
    check(word >> 8 == (n == 31 ? verdict >> 8 : 0), "what stands beside the refusal");
}

static void part(const Buffer *entry, uint64_t word, uint64_t verdict, const char *numbers, size_t whole) {
    const uint64_t *p = (const uint64_t *)(void *)lent.bytes;
    told(word, verdict, numbers);
    untouched(word);
    if (!word) {
        check(p[0] + p[1] <= entry->length, "a part lies in the entry");
        check(p[1] > 0 && p[1] % whole == 0, "ten columns, or whole records");
        check(p[2] <= 255, "a pointer is a byte");
    }
}

/* how many digits a coefficient has, none if it is zero */
static uint64_t digits_of(uint64_t coefficient) {
    uint64_t count = 0;
    for (; coefficient; coefficient /= 10) {
        count++;
    }
    return count;
}

/* "The count of digits from the first non-zero one to the last written", by the characters of a number field */
static uint64_t digits_written(const Buffer *field) {
    size_t i = 0;
    uint64_t count = 0;
    while (i < field->length && memchr(" +-", field->bytes[i], 3)) {
        i++;
    }
    for (; i < field->length && memchr(".0123456789", field->bytes[i], 11); i++) {
        count += field->bytes[i] != '.' && (count || field->bytes[i] != '0');
    }
    return count;
}

/* a value that was stored: blank, or a number that is written and reads to itself, whatever the count of its digits */
static void value(const uint64_t *stored) {
    static Buffer out;
    if (!out.pages) {
        out = fenced();
    }
    uint64_t v[8];
    memcpy(v, stored, sizeof v);
    check(v[0] <= 1 && v[1] <= v[0] && v[4] <= 10 && !v[5] && !v[6] && !v[7], "eight numbers in their rooms");
    check(x4_is_number(v) || (!v[2] && !v[3] && !v[4]), "a blank has no digits");
    check(v[2] ? v[4] >= digits_of(v[2]) : !v[4], "the digits of the coefficient are written, and none of zero");
    if (x4_is_number(v)) {
        lay(&out, 11);
        check(x4_write_number((uint32_t)x4_negative(v), x4_coefficient(v), x4_power(v), out.bytes, 11) == 0,
              "a number that was read is written");
        uint64_t *again = lend(8);
        check(x4_read_number(out.bytes, 11, again) == 0 && !memcmp(again, v, 4 * sizeof *v), "and reads to itself");
        check(again[4] == digits_written(&out), "with the digits that are written there");
    }
}

/* ---- doubles */

static uint64_t doubles[64], double_kinds[3], in_hand[3];

static uint64_t bits_of(double x) {
    uint64_t b;
    memcpy(&b, &x, sizeof b);
    return b;
}

/* which of the three a decimal is */
static uint64_t kind_due(uint64_t coefficient, int32_t power) {
    return coefficient <= UINT64_C(9999999999) && power >= -22 && power <= 22 ? 1 : 2;
}

/* a decimal in hand: the double that C's own reader makes of its text, exactly it where it is a whole number below 2 to the
 * 53rd; +0.0 where it is outside the simple range */
static void decimal_in_hand(uint32_t negative, uint64_t coefficient, int32_t power) {
    double x = x4_as_double(negative, coefficient, power);
    uint64_t kind = x4_as_double_kind(negative, coefficient, power), whole = coefficient;
    check(kind == kind_due(coefficient, power), "simple by its digits and its power");
    in_hand[kind]++;
    if (kind == 2) {
        check(!bits_of(x), "+0.0 where it is no double");
        return;
    }
    char text[64];
    snprintf(text, sizeof text, "%s%" PRIu64 "e%" PRId32, negative && coefficient ? "-" : "", coefficient, power);
    check(bits_of(x) == bits_of(strtod(text, NULL)), "the double of the decimal's text");
    check((x == 0) == !coefficient && (bits_of(x) >> 52 & 0x7ff) != 0x7ff, "finite, and zero for zero alone");
    for (int32_t i = 0; i < power && whole < UINT64_C(1) << 53; i++) {
        whole *= 10;
    }
    if (power >= 0 && whole < UINT64_C(1) << 53) {
        check((uint64_t)(negative ? -x : x) == whole, "a whole number exactly");
    }
}

/* the place that a double is stored in, against a page, and what stands in it before */
static Buffer real;

static double *lend_double(void) {
    if (!real.pages) {
        real = fenced();
    }
    lay(&real, sizeof(double));
    memset(real.bytes, 0xa5, real.length);
    return (double *)(void *)real.bytes;
}

/* the word of a call that stores a double, and what stands in that place, of an answer that a call for the value has given:
 * its refusal, its digits and its decimal */
static void doubled(uint64_t word, uint64_t answer, const uint64_t *stored) {
    uint32_t kind = x4_double_kind(word);
    double x;
    memcpy(&x, real.bytes, sizeof x);
    if (kind != 1) {
        check(bits_of(x) == UINT64_C(0xa5a5a5a5a5a5a5a5), "where it is no double nothing is stored");
        x = 0;
    }
    check((word & UINT64_C(0xffffffffffff)) == answer, "refused as the value is");
    doubles[x4_refusal(word)]++;
    if (answer || !x4_is_number(stored)) {
        check(!(word >> 48) && !bits_of(x), "no digits where it is refused or blank");
    } else {
        int32_t power = x4_power(stored);
        check(x4_double_digits(word) == stored[4], "the digits of the value");
        check(kind == kind_due(stored[2], power), "the kind that the value has");
        check(bits_of(x) != UINT64_C(1) << 63, "never -0.0");
        check(bits_of(x) == bits_of(x4_as_double((uint32_t)stored[1], stored[2], power)), "its decimal as a double");
        decimal_in_hand((uint32_t)stored[1], stored[2], power);
    }
    double_kinds[kind]++;
}

/* any numbers as a decimal, most of them near the limits */
static void any_decimal(void) {
    static const uint64_t some[] = {0,
                                    1,
                                    10,
                                    UINT64_C(9999999999),
                                    UINT64_C(10000000000),
                                    UINT64_C(1) << 53,
                                    UINT64_MAX};
    static const uint32_t signs[] = {0, 0, 1, 2, 0x100, 0x80000000, 0xffffffff};
    static const int32_t powers[] = {-22, -23, 22, 23, 0, INT32_MIN, INT32_MAX};
    uint64_t coefficient = below(3) ? bits() % UINT64_C(20000000000) >> below(35) : below(2) ? some[below(7)] : bits();
    int32_t power = below(3) ? (int32_t)below(61) - 30 : powers[below(7)];
    decimal_in_hand(signs[below(7)], coefficient, power);
}

static void questions(const Buffer *entry, Buffer *keyword, uint64_t verdict) {
    const uint8_t *e = entry->bytes;
    size_t n = entry->length, at = n >= RECORD ? below(n / RECORD) * RECORD : 0;
    uint32_t own = n >= RECORD ? (uint32_t)((e[at + 71] - '0') * 100 + (e[at + 72] - '0') * 10 + e[at + 73] - '0') : 1;
    uint32_t subentry = below(8) ? own : (uint32_t)bits();
    uint32_t section = below(8) ? 1 + (uint32_t)below(2) : (uint32_t)bits();
    uint32_t line = below(4) ? 1 + (uint32_t)below(3) : (uint32_t)bits();
    uint32_t column = (uint32_t)(below(3) ? 1 + below(3) : below(20));
    uint64_t first[8];
    uint64_t word = x4_value(e, n, subentry, section, line, column, lend(8));
    memcpy(first, lent.bytes, sizeof first);
    check(word == x4_value(e, n, subentry, section, line, column, lend(8)) && !memcmp(first, lent.bytes, sizeof first),
          "the same answer again");
    told(word, verdict, "\x1f\x20\x21\x22\x23");
    untouched(word);
    if (!word) {
        value(first);
    }
    doubled(x4_double(e, n, subentry, section, line, column, lend_double()), word, first);
    word = x4_heading(e, n, subentry, section, column, lend(3));
    part(entry, word, verdict, "\x1f\x20\x21\x23", 10);
    word = x4_unit(e, n, subentry, section, column, lend(3));
    part(entry, word, verdict, "\x1f\x20\x21\x23", 10);
    lay(keyword, below(6) ? 10 : below(24));
    for (size_t i = 0; i < keyword->length; i++) {
        keyword->bytes[i] = at + i < n ? e[at + i] : ' ';
    }
    uint8_t pointer = at + 10 < n && below(3) ? e[at + 10] : ' ';
    const uint64_t *p = lend(3);
    word = x4_passage(e, n, subentry, keyword->bytes, keyword->length, pointer, lend(3));
    part(entry, word, verdict, "\x1f\x20\x21\x24", RECORD);
    check(keyword->length == 10 || word, "a keyword of another length has no passage");
    check(word || p[2] == pointer, "the pointer asked for");
}

/* ---- the index */

enum { MOST_NUMBERS = 4990 };

/* the identifiers of the sections, in the order of a row */
static const char *const sections[] = {"BIB        ", "COMMON     ", "DATA       "};

static uint64_t by_index[64], own_answers, rows_found;

/* a slice of so many numbers, against a page */
static uint32_t *lay_numbers(Buffer *b, size_t numbers) {
    lay(b, 4 * numbers);
    return (uint32_t *)(void *)b->bytes;
}

/* whether columns 1-11 of a record, counted from 1, are an identifier */
static int has_identifier(const Buffer *entry, uint64_t record, const char *identifier) {
    return record > 0 && record * RECORD <= entry->length &&
           !memcmp(entry->bytes + (record - 1) * RECORD, identifier, 11);
}

/* a row of an index that was made: its number rises and stands in its first record, and each section has its identifier */
static void row_made(const Buffer *entry, const uint32_t *row, uint32_t before) {
    char digits[32];
    check(row[0] > before && row[0] <= 998, "numbers rise up to 998");
    check(has_identifier(entry, row[1], "SUBENT     ") || has_identifier(entry, row[1], "NOSUBENT   "), "a subentry");
    snprintf(digits, sizeof digits, "%03" PRIu32, row[0]);
    check(!memcmp(entry->bytes + (row[1] - 1) * (size_t)RECORD + 19, digits, 3), "the number of its first record");
    for (int i = 0; i < 3; i++) {
        uint32_t record = row[2 + i];
        check(!record || (record > row[1] && has_identifier(entry, record, sections[i])), "a section's record");
    }
}

/* makes an index in a slice of any length: refused, or in its front; past the rows every number stays */
static size_t index_made(const Buffer *entry, Buffer *index, uint64_t verdict, const uint64_t totals[4]) {
    size_t due = verdict ? 0 : 5 * (size_t)totals[0];
    size_t room = below(3) ? due + below(12) : below(2) ? below(due + 12) : (size_t)MOST_NUMBERS;
    uint32_t *t = lay_numbers(index, room);
    memset(index->bytes, 0x5a, index->length);
    uint64_t *rows = lend(1), word = x4_index(entry->bytes, entry->length, t, room, rows);
    told(word, verdict, "\x1f\x26");
    untouched(word);
    check(verdict || (word == 0) == (room >= due), "38 where the slice is too short");
    check(word || rows[0] == totals[0], "a row for each subentry");
    for (size_t i = word ? 0 : due; i < room; i++) {
        check(t[i] == 0x5a5a5a5a, "numbers past the rows stay, and all of a refused call's");
    }
    for (size_t i = 0; i < due && !word; i += 5) {
        row_made(entry, t + i, i ? t[i - 5] : 0);
    }
    return word ? 0 : due;
}

/* changes an index of n numbers in a slice with room for more, up to three times; how many it has then */
static size_t mutate_index(uint32_t *t, size_t n, size_t room) {
    for (size_t times = below(4); times > 0; times--) {
        size_t rows = n / 5, a = rows ? 5 * below(rows) : 0, b = rows ? 5 * below(rows) : 0;
        switch (below(8)) {
        case 0: n = below(n + 1); break;
        case 1:
            if (n + 5 <= room) {
                size_t more = 1 + below(5);
                memset(t + n, 0, 4 * more);
                n += more;
            }
            break;
        case 2:
            if (rows) memmove(t + a, t + b, 20);
            break;
        case 3:
            if (n) t[below(n)] = (uint32_t)bits();
            break;
        case 4:
            if (n) t[below(n)] = (uint32_t) "\x00\x01\x02\x03\x1b\x1c"[below(6)];
            break;
        default:
            if (n) t[below(n)] += (uint32_t)(below(2) ? 1 : -1);
            break;
        }
    }
    return n;
}

/* an answer by an index: a number that it has, zeros beside it, and nothing stored where it is refused */
static void told_by_index(uint64_t word, const char *numbers) {
    by_index[x4_refusal(word)]++;
    check(word < 64 && (word == 0 || strchr(numbers, (int)word)), "a refusal that a question by an index does not have");
    untouched(word);
}

typedef struct {
    uint32_t subentry, section, line, column;
    const Buffer *keyword;
    uint8_t pointer;
} Question;

/* the four questions by so many numbers: their words, and what they store one behind the other */
static void ask_by(const Buffer *entry, const uint32_t *t, size_t n, const Question *q, uint64_t words[4],
                   uint64_t stored[17]) {
    static const char *numbers[] = {"\x20\x21\x22\x23\x26\x27", "\x20\x21\x23\x26\x27", "\x20\x21\x23\x26\x27",
                                    "\x20\x21\x24\x26\x27"};
    static const size_t lengths[] = {8, 3, 3, 3};
    const uint8_t *e = entry->bytes;
    size_t l = entry->length, at = 0;
    for (int i = 0; i < 4; at += lengths[i], i++) {
        uint64_t *a = lend(lengths[i]);
        switch (i) {
        case 0: words[i] = x4_index_value(e, l, t, n, q->subentry, q->section, q->line, q->column, a); break;
        case 1: words[i] = x4_index_heading(e, l, t, n, q->subentry, q->section, q->column, a); break;
        case 2: words[i] = x4_index_unit(e, l, t, n, q->subentry, q->section, q->column, a); break;
        default:
            words[i] = x4_index_passage(e, l, t, n, q->subentry, q->keyword->bytes, q->keyword->length, q->pointer, a);
            break;
        }
        told_by_index(words[i], numbers[i]);
        memcpy(stored + at, a, 8 * lengths[i]);
        if (i && !words[i]) {
            check(a[0] + a[1] <= l && a[1] > 0 && a[1] % (i < 3 ? 10 : RECORD) == 0, "a part lies in the entry");
            check(i < 3 || a[2] == q->pointer, "the pointer asked for");
        }
    }
    if (!words[0]) {
        check(q->section != 1 || stored[0] == 1, "no value of COMMON is blank");
        value(stored);
    }
    doubled(x4_index_double(e, l, t, n, q->subentry, q->section, q->line, q->column, lend_double()), words[0], stored);
}

/* by the entry's own index the answers are the full ones */
static void full_answers(const Buffer *entry, const Question *q, const uint64_t words[4], const uint64_t stored[17]) {
    const uint8_t *e = entry->bytes;
    size_t l = entry->length;
    uint64_t word = x4_value(e, l, q->subentry, q->section, q->line, q->column, lend(8));
    check(word == words[0] && !memcmp(lent.bytes, stored, 64), "the value of the full question");
    word = x4_heading(e, l, q->subentry, q->section, q->column, lend(3));
    check(word == words[1] && !memcmp(lent.bytes, stored + 8, 24), "the heading of the full question");
    word = x4_unit(e, l, q->subentry, q->section, q->column, lend(3));
    check(word == words[2] && !memcmp(lent.bytes, stored + 11, 24), "the unit of the full question");
    word = x4_passage(e, l, q->subentry, q->keyword->bytes, q->keyword->length, q->pointer, lend(3));
    check(word == words[3] && !memcmp(lent.bytes, stored + 14, 24), "the passage of the full question");
    own_answers += 4;
}

/* a question about something that may be there: the number of a row, and columns 1-11 of some record */
static Question question(const Buffer *entry, Buffer *keyword, const uint32_t *t, size_t n) {
    size_t records = entry->length / RECORD;
    const uint8_t *record = entry->bytes + (records ? below(records) * RECORD : 0);
    Question q = {n && below(8) ? t[5 * below((n + 4) / 5)] : (uint32_t)below(4),
                  below(8) ? 1 + (uint32_t)below(2) : (uint32_t)bits(),
                  below(4) ? 1 + (uint32_t)below(3) : (uint32_t)bits(),
                  (uint32_t)(below(3) ? 1 + below(3) : below(20)),
                  keyword,
                  ' '};
    lay(keyword, below(6) ? 10 : below(12));
    memset(keyword->bytes, ' ', keyword->length);
    if (records) {
        memcpy(keyword->bytes, record, keyword->length);
        q.pointer = below(3) ? record[10] : ' ';
    }
    return q;
}

/* the first row with a number, and none where there is none; by that row alone the answers are the same */
static void row_alone(const Buffer *entry, const uint32_t *t, size_t n, const Question *q, const uint64_t words[4],
                      const uint64_t stored[17]) {
    static Buffer one;
    if (!one.pages) {
        one = fenced();
    }
    uint64_t *before = lend(1), word = x4_index_row(t, n, q->subentry, before), again[4], same[17];
    size_t row = word ? 0 : (size_t)before[0];
    told_by_index(word, "\x20\x26");
    check((word == 38) == (n % 5 != 0), "38 where the numbers are not whole rows");
    check(word || row < n / 5, "a row of the index");
    for (size_t i = 0; i < (word ? n / 5 : row) && word != 38; i++) {
        check(t[5 * i] != q->subentry, "no row before it has the number");
    }
    if (!word) {
        check(t[5 * row] == q->subentry, "the row has the number");
        uint32_t *alone = lay_numbers(&one, 5);
        memcpy(alone, t + 5 * row, 20);
        ask_by(entry, alone, 5, q, again, same);
        check(!memcmp(again, words, sizeof again) && !memcmp(same, stored, sizeof same), "by its row alone the same");
        rows_found++;
    }
}

/* an index by the identifiers in the records of an entry, which may be refused; how many numbers it has */
static size_t likely_index(const Buffer *entry, uint32_t *t) {
    size_t n = 0;
    for (uint32_t record = 1; record <= entry->length / RECORD && n + 5 <= MOST_NUMBERS; record++) {
        const uint8_t *r = entry->bytes + (record - 1) * (size_t)RECORD;
        if (has_identifier(entry, record, "SUBENT     ") || has_identifier(entry, record, "NOSUBENT   ")) {
            uint32_t own = (uint32_t)((r[19] - '0') * 100 + (r[20] - '0') * 10 + r[21] - '0');
            memcpy(t + n, (uint32_t[5]){own, record, 0, 0, 0}, 20);
            n += 5;
        }
        for (size_t i = 0; i < 3 && n; i++) {
            if (has_identifier(entry, record, sections[i])) t[n - 3 + i] = record;
        }
    }
    return n;
}

/* an index of an entry, its own or by the identifiers in its records, then changed; the entry is changed, too */
static void indexes(const Buffer *entry, Buffer *index, Buffer *changed, Buffer *keyword, uint64_t verdict,
                    const uint64_t totals[4]) {
    static uint32_t kept[MOST_NUMBERS + 64], last[MOST_NUMBERS + 64];
    static uint8_t before[ROOM];
    uint64_t words[4], stored[17];
    memcpy(before, entry->bytes, entry->length);
    size_t n = index_made(entry, index, verdict, totals);
    memcpy(kept, index->bytes, 4 * n);
    for (int i = 0; i < 4 && n; i++) {
        const uint32_t *t = lay_numbers(index, n);
        memcpy(index->bytes, kept, 4 * n);
        Question q = question(entry, keyword, t, n);
        ask_by(entry, t, n, &q, words, stored);
        full_answers(entry, &q, words, stored);
        row_alone(entry, t, n, &q, words, stored);
    }
    if (!n) {
        n = likely_index(entry, kept);
    }
    for (int i = 0; i < 6; i++) {
        memcpy(last, kept, sizeof kept);
        size_t of = mutate_index(last, n, MOST_NUMBERS), length = entry->length;
        const uint32_t *t = lay_numbers(index, of);
        memcpy(index->bytes, last, 4 * of);
        memcpy(work, entry->bytes, length);
        fill(changed, work, below(2) ? mutate(length) : length);
        Question q = question(changed, keyword, t, of);
        ask_by(changed, t, of, &q, words, stored);
        row_alone(changed, t, of, &q, words, stored);
        check(!memcmp(index->bytes, last, 4 * of), "the index is only read");
    }
    check(!memcmp(entry->bytes, before, entry->length), "the entry is only read");
}

/* ---- walks */

static uint64_t walks[64], walked, malformed, ended;

/* five numbers of a walk, against a page */
static uint32_t *lay_walk(Buffer *b, const uint32_t numbers[5]) {
    uint32_t *walk = lay_numbers(b, 5);
    memcpy(walk, numbers, 20);
    return walk;
}

/* whether a walk stands at a place of a table that can be */
static int stands(const uint32_t w[5]) {
    return w[0] <= 20000 && w[1] <= 18 && w[2] <= 20000 && w[3] >= 1 && w[3] <= w[2] && w[4] >= 1 && w[4] <= w[1];
}

/* one step: what it stores, where the walk stands then, and the field itself; 0 where it is done */
static int step(const Buffer *entry, uint32_t *walk, uint64_t stored[8], uint64_t *word) {
    static Buffer places, field;
    if (!places.pages) {
        places = fenced();
        field = fenced();
    }
    uint32_t w[5];
    memcpy(w, walk, sizeof w);
    lay(&places, 24);
    memset(places.bytes, 0xa5, 24);
    uint64_t *place = (uint64_t *)(void *)places.bytes, *v = lend(8);
    *word = x4_walk_next(entry->bytes, entry->length, walk, place, v);
    memcpy(stored, v, 64);
    check(place[0] == (uint64_t)stands(w), "a value where the walk stands at a place, and nowhere else");
    if (!place[0]) {
        check(!*word && !place[1] && !place[2] && !memcmp(w, walk, sizeof w), "done, and staying so");
        untouched(1);
        ended++;
        return 0;
    }
    check(place[1] == w[3] && place[2] == w[4], "the place where it stood");
    check(walk[0] == w[0] && walk[1] == w[1] && walk[2] == w[2], "the table is the same");
    check(w[4] < w[1] ? walk[3] == w[3] && walk[4] == w[4] + 1 : walk[3] == w[3] + 1 && walk[4] == 1, "one place on");
    /* k records of headings, k of units, k to a line; what lies outside is blank */
    size_t k = (w[1] + 5) / 6, record = w[0] + (w[3] + 1) * k + (w[4] - 1) / 6;
    lay(&field, 11);
    memset(field.bytes, ' ', 11);
    if ((record + 1) * RECORD <= entry->length) {
        memcpy(field.bytes, entry->bytes + record * RECORD + 11 * ((w[4] - 1) % 6), 11);
    }
    check(*word == x4_read_number(field.bytes, 11, lend(8)) && !memcmp(lent.bytes, stored, 64), "what the field says");
    check(*word == 0 || *word == 15, "15 or none");
    doubled(x4_read_double(field.bytes, 11, lend_double()), *word, stored);
    malformed += *word == 15;
    walked++;
    return 1;
}

/* a walk over a table, from place to place, and then done; any other numbers, over changed bytes */
static void walks_of(const Buffer *entry, Buffer *numbers, Buffer *changed, uint64_t verdict) {
    static uint8_t before[ROOM];
    uint64_t stored[8], word;
    uint32_t kept[5] = {19, 3, 2, 1, 1};
    memcpy(before, entry->bytes, entry->length);
    for (int i = 0; i < 3; i++) {
        size_t at = entry->length >= RECORD ? below(entry->length / RECORD) * RECORD : 0;
        const uint8_t *r = entry->bytes + at;
        uint32_t n = entry->length >= RECORD && below(8)
                         ? (uint32_t)((r[71] - '0') * 100 + (r[72] - '0') * 10 + r[73] - '0')
                         : (uint32_t)bits();
        uint32_t section = below(8) ? 1 + (uint32_t)below(2) : (uint32_t)bits();
        uint32_t *walk = lay_numbers(numbers, 5);
        memset(walk, 0x5a, 20);
        word = x4_walk(entry->bytes, entry->length, n, section, walk);
        walks[x4_refusal(word)]++;
        told(word, verdict, "\x1f\x20\x21");
        if (word) {
            for (int j = 0; j < 5; j++) {
                check(walk[j] == 0x5a5a5a5a, "a refused call stores nothing");
            }
            check(x4_value(entry->bytes, entry->length, n, section, 1, 1, lend(8)) == word, "refused as the value is");
            continue;
        }
        memcpy(kept, walk, sizeof kept);
        check(walk[3] == 1 && walk[4] == 1 && stands(walk) &&
                  has_identifier(entry, walk[0], section == 1 ? "COMMON     " : "DATA       "),
              "at the first place of a section");
        for (uint32_t line = 1; line <= kept[2]; line++) {
            for (uint32_t column = 1; column <= kept[1]; column++) {
                check(step(entry, walk, stored, &word) && !word, "each place of the table");
                if (!below(8)) {
                    check(!x4_value(entry->bytes, entry->length, n, section, line, column, lend(8)) &&
                              !memcmp(lent.bytes, stored, 64),
                          "the value of the full question");
                }
            }
        }
        for (int j = 0; j < 3; j++) {
            check(!step(entry, walk, stored, &word), "done behind the last");
        }
    }
    for (int i = 0; i < 4; i++) {
        static const uint32_t some[] = {0, 1, 2, 6, 7, 18, 19, 20000, 20001, 0x80000000, 0xffffffff};
        uint32_t *walk = lay_walk(numbers, kept);
        for (size_t times = below(4); times > 0; times--) {
            size_t place = below(5);
            walk[place] = below(3) ? some[below(11)] : below(2) ? (uint32_t)bits() : walk[place] + 1;
        }
        memcpy(work, entry->bytes, entry->length);
        fill(changed, work, below(2) ? mutate(entry->length) : entry->length);
        for (int j = 0; j < 20; j++) {
            step(changed, walk, stored, &word);
        }
    }
    check(!memcmp(entry->bytes, before, entry->length), "the entry is only read");
}

/* the verdict on an entry; its totals are no more than its records allow */
static uint64_t judged(const uint8_t *entry, size_t n, uint64_t totals[4]) {
    uint64_t word = x4_judge(entry, n, lend(4)), records = n / RECORD;
    memcpy(totals, lent.bytes, 4 * sizeof *totals);
    untouched(word);
    check(x4_refusal(word) <= 17 && x4_refusal(word) == x4_entry_refusal(word), "1 to 17, twice");
    check(x4_entry_record(word) <= records + 1 && x4_entry_column(word) <= 81 && !(word >> 48), "where it is refused");
    check(word || (totals[0] <= records && totals[1] <= records && totals[2] <= records && totals[3] <= 6 * records),
          "totals");
    return word;
}

typedef uint64_t Copier(const uint8_t *, size_t, uint8_t *, size_t);

// Whether a call copied its input, and what it stored where it did not and past the input's length.
static int copied_by(Copier *call, const Buffer *input, Buffer *copy, uint64_t verdict) {
    static uint8_t before[ROOM];
    size_t n = input->length, room = below(2) ? n + below(100) : below(n + 100);
    lay(copy, room);
    memset(before, '#', room);
    memcpy(copy->bytes, before, room);
    uint64_t word = call(input->bytes, n, copy->bytes, room);
    told(word, verdict, "\x1f\x25");
    if (word) {
        check(x4_refusal(word) == 31 || room < n, "37 where the buffer is shorter");
        check(!memcmp(copy->bytes, before, room), "a refused call stores nothing");
        return 0;
    }
    check(!memcmp(copy->bytes + n, before, room - n), "bytes past the input's length stay");
    return 1;
}

static void copies(const Buffer *entry, Buffer *copy, Buffer *again, uint64_t verdict, const uint64_t totals[4]) {
    if (!copied_by(x4_copy, entry, copy, verdict)) return;
    size_t n = entry->length;
    uint64_t copied[4];
    check(judged(copy->bytes, n, copied) == verdict && !memcmp(copied, totals, sizeof copied),
          "the copy has the entry's verdict");
    lay(again, n);
    check(x4_copy(copy->bytes, n, again->bytes, n) == 0 && !memcmp(copy->bytes, again->bytes, n), "it is its own copy");
}

static void fields(Buffer *field) {
    lay(field, below(8) ? 11 : below(20));
    for (size_t i = 0; i < field->length; i++) {
        field->bytes[i] = (uint8_t)(below(30) ? "  0123456789+-.E"[below(16)] : bits());
    }
    uint64_t *v = lend(8);
    uint64_t word = x4_read_number(field->bytes, field->length, v);
    check(word == 0 || word == (field->length == 11 ? 15u : 40u), "15 or 40");
    untouched(word);
    doubled(x4_read_double(field->bytes, field->length, lend_double()), word, v);
    if (!word) {
        check(x4_is_number(v) ? v[4] == digits_written(field) : !v[4], "the count of digits written");
        value(v);
    }
    lay(field, below(4) ? 11 : below(20));
    memset(field->bytes, '#', field->length);
    uint64_t coefficient = bits() >> below(64);
    int32_t power = (int32_t)((int64_t)(bits() >> 32) - INT64_C(0x80000000)) / (int32_t)(1 + below(1 << 20));
    uint32_t refusal = x4_write_number((uint32_t)bits(), coefficient, power, field->bytes, field->length);
    check(refusal == 0 || refusal == (field->length == 11 ? 41u : 40u), "41 or 40");
    for (size_t i = 0; i < field->length && refusal; i++) {
        check(field->bytes[i] == '#', "a refused call stores nothing");
    }
}

/* ---- reasons */

typedef uint64_t Judge(const uint8_t *, size_t, uint64_t *);
typedef uint64_t Explainer(const uint8_t *, size_t, uint64_t *, uint64_t *, uint8_t *);

static uint64_t kinds[7];

/* which kind of reason a refusal has */
static int fits(uint32_t refusal, uint64_t kind) {
    switch (refusal) {
    case 5:
    case 6: return kind == 6;
    case 8: return kind == 1 || kind == 2;
    case 9: return kind == 3;
    case 13: return kind == 4;
    case 14: return kind == 5;
    default: return kind == 0;
    }
}

/* with the expected characters in their place the refusal is gone, and none before it has come */
static void mended(Judge *judge, const Buffer *input, uint64_t word, const uint8_t characters[8]) {
    static uint8_t copy[ROOM];
    size_t at = (x4_entry_record(word) - 1) * (size_t)RECORD + x4_entry_column(word) - 1;
    memcpy(copy, input->bytes, input->length);
    memcpy(copy + at, characters, x4_refusal(word) == 5 ? 8 : 5);
    uint64_t left = judge(copy, input->length, lend(4));
    check(!left || x4_entry_record(left) > x4_entry_record(word) ||
              (x4_entry_record(left) == x4_entry_record(word) && x4_refusal(left) > x4_refusal(word)),
          "the expected characters mend it");
}

/* the equal heading stands before the refused one, and is equal */
static void equal_heading(const Buffer *input, uint64_t word, uint64_t record, uint64_t column) {
    uint64_t own = (x4_entry_record(word) - UINT64_C(1)) * RECORD + x4_entry_column(word) - 1;
    uint64_t at = (record - 1) * RECORD + column - 1;
    check(record > 0 && column % 11 == 1 && column <= 56, "a field of a record");
    check(at < own && !memcmp(input->bytes + at, input->bytes + own, 11), "an equal heading before it");
}

static void reason(Judge *judge, const Buffer *input, uint64_t word, const uint64_t f[3], const uint8_t characters[8]) {
    const uint8_t *record = input->bytes + (f[0] ? (x4_entry_record(word) - 1) * (size_t)RECORD : 0);
    check(f[0] == 6 || !memcmp(characters, "        ", 8), "blanks where no characters are expected");
    switch (f[0]) {
    case 1: check(f[1] != f[2] && f[1] <= UINT64_C(99999999999), "a count that is untrue"); break;
    case 2: check(f[1] > 0 && (!f[2] || f[1] < f[2]), "the least and the greatest"); break;
    case 3: check(f[1] <= 998 && !f[2], "a number of a subentry"); break;
    case 4: equal_heading(input, word, f[1], f[2]); break;
    case 5: check(f[1] == record[x4_entry_column(word) + 9] && !f[2], "the heading's pointer"); break;
    case 6:
        check(!f[1] && !f[2] && (x4_refusal(word) == 5 || !memcmp(characters + 5, "   ", 3)), "eight, or five");
        mended(judge, input, word, characters);
        break;
    default: check(!f[1] && !f[2], "zeros where nothing is said"); break;
    }
}

/* the verdict once more, with the same totals or none, and a reason that is stored always */
static void explained_by(Explainer *call, Judge *judge, const Buffer *input, uint64_t verdict,
                         const uint64_t totals[4]) {
    static Buffer facts, characters;
    if (!facts.pages) {
        facts = fenced();
        characters = fenced();
    }
    uint64_t *own = lend(4), numbers[3];
    uint8_t expected[8];
    lay(&facts, sizeof numbers);
    lay(&characters, sizeof expected);
    memset(facts.bytes, 0xa5, facts.length);
    memset(characters.bytes, 0xa5, characters.length);
    uint64_t *lent_facts = (uint64_t *)(void *)facts.bytes;
    uint64_t word = call(input->bytes, input->length, own, lent_facts, characters.bytes);
    memcpy(numbers, facts.bytes, sizeof numbers);
    memcpy(expected, characters.bytes, sizeof expected);
    check(word == verdict, "the verdict of judging");
    untouched(word);
    check(word || !memcmp(own, totals, 4 * sizeof *totals), "the totals of judging");
    check(numbers[0] <= 6 && fits(x4_refusal(word), numbers[0]), "a kind of reason that the refusal has");
    kinds[numbers[0]]++;
    reason(judge, input, word, numbers, expected);
}

/* ---- transmissions */

/* an entry that begins with a byte: it lies in the file, from ENTRY to the first ENDENTRY */
static size_t entry_at(const Buffer *file, size_t at) {
    size_t n = x4_entry_length(file->bytes, file->length, at);
    if (n == 0) {
        return 0;
    }
    check(at < file->length && n <= file->length - at, "an entry lies in the file");
    check(n % RECORD == 0 && n <= MOST, "whole records, 20,000 at the most");
    check(!memcmp(file->bytes + at, "ENTRY      ", 11), "it begins with ENTRY");
    for (size_t past = RECORD; past <= n; past += RECORD) {
        int ends = !memcmp(file->bytes + at + past - RECORD, "ENDENTRY   ", 11);
        check(ends == (past == n), "it ends with the first ENDENTRY");
    }
    return n;
}

/* the verdict on a file; its totals are no more than its records allow, and 1 and 16 have no ordinal */
static uint64_t judged_file(const uint8_t *file, size_t n, uint64_t totals[4]) {
    uint64_t word = x4_judge_file(file, n, lend(4)), records = n / RECORD;
    memcpy(totals, lent.bytes, 4 * sizeof *totals);
    untouched(word);
    check(x4_refusal(word) <= 17 && x4_refusal(word) == x4_entry_refusal(word), "1 to 17, twice");
    check(x4_entry_record(word) <= records + 1 && x4_entry_column(word) <= 81, "where it is refused");
    check(x4_entry_ordinal(word) <= records, "an entry has a record");
    check(!x4_entry_ordinal(word) || (x4_refusal(word) != 1 && x4_refusal(word) != 16), "1 and 16 are in no entry");
    check(word || (totals[0] <= records && totals[1] <= records && totals[2] <= records && totals[3] <= 6 * records),
          "totals");
    return word;
}

/* of an accepted file all entries are accepted, and their totals are the file's; of one that is refused in an entry
 * that entry is, up to that record, by the same number and in the same column, and all before it are accepted */
static void entries_of(const Buffer *file, uint64_t verdict, const uint64_t totals[4]) {
    uint64_t sums[4] = {0, 0, 0, 0}, own[4];
    size_t at = RECORD, met = 0, ordinal = x4_entry_ordinal(verdict);
    while (verdict == 0 || met + 1 < ordinal) {
        size_t n = entry_at(file, at);
        if (n == 0) {
            break;
        }
        check(x4_judge(file->bytes + at, n, own) == 0, "its entries are accepted");
        for (int i = 0; i < 4; i++) {
            sums[i] += own[i];
        }
        at += n;
        met++;
    }
    if (verdict == 0) {
        check(met > 0 && at + RECORD == file->length, "entries from TRANS to ENDTRANS");
        check(!memcmp(sums, totals, sizeof sums), "totals over the file");
    } else if (ordinal > 0) {
        size_t past = x4_entry_record(verdict) * (size_t)RECORD;
        check(met + 1 == ordinal && at < past && past <= file->length, "the entry of that ordinal");
        uint64_t word = x4_judge(file->bytes + at, past - at, lend(4));
        check(x4_refusal(word) == x4_refusal(verdict) && x4_entry_column(word) == x4_entry_column(verdict) &&
                  x4_entry_record(word) == (past - at) / RECORD,
              "the refusal of that entry");
    }
}

static uint64_t file_refusals[64], inside, begun;

static void file_copies(const Buffer *file, Buffer *copy, Buffer *again, uint64_t verdict, const uint64_t totals[4]) {
    if (!copied_by(x4_copy_file, file, copy, verdict)) return;
    size_t n = file->length;
    uint64_t copied[4];
    check(judged_file(copy->bytes, n, copied) == 0 && !memcmp(copied, totals, sizeof copied),
          "the copy has the file's verdict");
    for (size_t at = RECORD, length; (length = entry_at(file, at)) != 0; at += length) {
        lay(again, length);
        check(x4_copy(file->bytes + at, length, again->bytes, length) == 0, "an entry is copied");
        check(!memcmp(copy->bytes + at, again->bytes, length), "the copies in place");
    }
    check(!memcmp(copy->bytes, file->bytes, RECORD), "TRANS as it was");
    check(!memcmp(copy->bytes + n - RECORD, file->bytes + n - RECORD, RECORD), "ENDTRANS as it was");
}

/* a mutated transmission: verdict, entries at every record's byte and at any others, copy */
static void transmissions(Buffer *file, Buffer *copy, Buffer *again, size_t count, char **names) {
    size_t n = transmission(count, names);
    fill(file, work, n);
    uint64_t totals[4], verdict = judged_file(file->bytes, n, totals);
    file_refusals[x4_refusal(verdict)]++;
    inside += x4_entry_ordinal(verdict) > 0;
    explained_by(x4_explain_file, x4_judge_file, file, verdict, totals);
    entries_of(file, verdict, totals);
    for (size_t at = 0; at < n; at += RECORD) {
        begun += entry_at(file, at) > 0;
    }
    for (int i = 0; i < 8; i++) {
        entry_at(file, below(n + 200));
        entry_at(file, (size_t)bits());
    }
    entry_at(file, n);
    entry_at(file, SIZE_MAX);
    file_copies(file, copy, again, verdict, totals);
    check(!memcmp(file->bytes, work, n), "the file is only read");
}

/* ---- lines in the CINDA2001 layout */

static uint64_t line_refusals[128];

static uint64_t cinda_refused(uint64_t word) {
    line_refusals[x4_refusal(word) & 127]++;
    return word;
}

/* what a field of a line may hold, good or not, and where */
static const struct {
    size_t first;
    const char *text;
} field_texts[] = {
    {0, "D"}, {0, "M"}, {0, "B"}, {0, "a"}, {1, "999MNY"}, {1, " 99MNY"}, {1, "  0"}, {1, "92 "}, {1, "   "},
    {4, "MNY"}, {4, "CMP"}, {4, "  0"}, {4, "2 3"}, {7, "1"}, {7, "M"}, {1, "999MNX"}, {33, "1 99"}, {33, "L   "},
    {33, "l198"}, {33, "    "}, {37, "1 "}, {37, "  "}, {37, "99"}, {79, "199412"}, {79, "199413"}, {79, "199400"},
    {79, "1994  "}, {79, "      "}, {125, "\r"}, {8, "P,X+N  "}, {85, " # "}, {85, "%<>:;"}, {55, "  "},
};
static const char *energy_texts[] = {"       ", "  1.0+6", "14.    ", "+1.4+07", " 1.40E7", "  2.5-2", "  1000.", " 1.+100",
                                     "    -.0", ".1-9999", "1.0 E 6", " 9.9+99", "NDG    ", "     +6", "1.0+6  ", "     14"};

/* one to six lines, each changed up to four times; at times a byte more or less */
static size_t some_lines(void) {
    static const char made[] = "A 92235 N,F            CS  USAORLL198 1E   1.0+6    14.2JPR/C,49,2549          199405Name+ TBL ";
    size_t count = 1 + below(6);
    for (size_t i = 0; i < count; i++) {
        uint8_t *line = work + X4_CINDA_LINE * i;
        memset(line, ' ', X4_CINDA_LINE);
        memcpy(line, made, sizeof made - 1);
        line[X4_CINDA_LINE - 1] = '\n';
        for (int energy = 41; energy <= 48; energy += 7) {
            memcpy(line + energy, energy_texts[below(below(8) ? 12 : 16)], 7);
            for (size_t k = below(6); k == 0; k++) {
                line[energy + (int)below(7)] = (uint8_t) " 0123456789+-.E"[below(15)];
            }
        }
        for (size_t times = below(4) / 2; times > 0; times--) {
            size_t which = below(sizeof field_texts / sizeof *field_texts);
            memcpy(line + field_texts[which].first, field_texts[which].text, strlen(field_texts[which].text));
        }
        if (!below(12)) {
            line[below(X4_CINDA_LINE)] = (uint8_t)bits();
        }
    }
    size_t n = X4_CINDA_LINE * count;
    return below(12) ? n : below(3) ? n + below(3) - 1 : below(2) ? below(n + 1) : 0;
}

static int is_integer(const uint8_t *columns, int width) {
    int at = 0;
    for (; at < width - 1 && columns[at] == ' '; at++) {
    }
    for (; at < width && columns[at] >= '0' && columns[at] <= '9'; at++) {
    }
    return at == width;
}

static int is_energy(const uint8_t *columns) {
    uint8_t wide[11];
    uint64_t read[8];
    memset(wide, ' ', 4);
    memcpy(wide + 4, columns, 7);
    return x4_read_number(wide, 11, read) == 0;
}

/* the first fault of a line as the request has it, its number and its column; energies by the number reader */
static uint64_t fault(const uint8_t *l) {
    static const char permitted[] =
        " ABCDEFGHIJKLMNOPQRSTUVWXYZabcdefghijklmnopqrstuvwxyz0123456789+-.)(*/=',%<>:;!?&";
    if (l[125] != '\n') return 71 | 126 << 16;
    for (uint64_t i = 0; i < 125; i++) {
        if (!memchr(permitted, l[i], sizeof permitted - 1)) return 72 | (i + 1) << 16;
    }
    int many = !memcmp(l + 4, "MNY", 3), area = (l[33] >= 'A' && l[33] <= 'Z') || is_integer(l + 33, 1);
    if (!strchr("ADM", l[0])) return 73 | 1 << 16;
    if (many ? memcmp(l + 1, "999", 3) != 0 : !is_integer(l + 1, 3)) return 74 | 2 << 16;
    if (!many && !is_integer(l + 4, 3)) return 74 | 5 << 16;
    if (l[7] != ' ' && !is_integer(l + 7, 1)) return 74 | 8 << 16;
    if (!area || !is_integer(l + 34, 3)) return 75 | 34 << 16;
    if (!is_integer(l + 37, 2)) return 75 | 38 << 16;
    if (!is_energy(l + 41)) return 76 | 42 << 16;
    if (!is_energy(l + 48)) return 76 | 49 << 16;
    for (int i = 79; i < 85; i++) {
        if (!is_integer(l + i, 1)) return 77 | 80 << 16;
    }
    return memcmp(l + 83, "01", 2) < 0 || memcmp(l + 83, "12", 2) > 0 ? 77 | 80 << 16 : 0;
}

/* the word of a check: 70 by the length, then the first line with a fault */
static uint64_t cinda_due(const uint8_t *lines, size_t n) {
    if (n == 0 || n % X4_CINDA_LINE != 0) return 70;
    for (size_t line = 1; line <= n / X4_CINDA_LINE; line++) {
        uint64_t found = fault(lines + X4_CINDA_LINE * (line - 1));
        if (found) return found | (uint64_t)line << 24;
    }
    return 0;
}

/* what an integer says */
static void integer_is(uint64_t n, const uint8_t *columns, int width) {
    uint64_t read = 0;
    int at = 0;
    for (; at < width - 1 && columns[at] == ' '; at++) {
    }
    for (; at < width; at++) {
        read = 10 * read + (uint64_t)(columns[at] - '0');
    }
    check(n == read, "an integer");
}

/* an energy is what the number reader says of it, four blanks in front; and its canonical field is the writer's */
static void energy_is(const uint64_t *v, const uint8_t *columns, const uint8_t *copied) {
    uint8_t wide[11], canonical[11];
    uint64_t read[8];
    memset(wide, ' ', 4);
    memcpy(wide + 4, columns, 7);
    check(!x4_read_number(wide, 11, read) && !memcmp(read, v, sizeof read), "an energy is a number field");
    memset(canonical, ' ', 11);
    check(!x4_is_number(v) || !x4_write_number(x4_negative(v) ? 1 : 0, x4_coefficient(v), x4_power(v), canonical, 11),
          "which can be written");
    check(!copied || !memcmp(canonical + 4, copied, 7), "its canonical field");
}

static Buffer apart[3];

/* one line taken apart: refused as all are, by 34, or its fields */
static void cinda_line(const Buffer *lines, uint64_t verdict, uint32_t n, const uint8_t *copied) {
    uint64_t *a[3];
    for (int i = 0; i < 3; i++) {
        if (!apart[i].pages) apart[i] = fenced();
        lay(&apart[i], i ? 64 : 112);
        memset(apart[i].bytes, 0xa5, apart[i].length);
        a[i] = (uint64_t *)(void *)apart[i].bytes;
    }
    uint64_t word = cinda_refused(x4_cinda_line(lines->bytes, lines->length, n, a[0], a[1], a[2]));
    uint64_t due = verdict ? verdict : n < 1 || n > lines->length / X4_CINDA_LINE ? 34 : 0;
    check(word == due, "a line: refused as all are, or by 34");
    for (int i = 0; i < 3; i++) {
        for (size_t k = 0; k < apart[i].length && word; k++) {
            check(apart[i].bytes[k] == 0xa5, "a refused line stores nothing");
        }
    }
    uint64_t *p = lend(12);
    check(x4_cinda_pieces(lines->bytes, lines->length, n, p) == word, "its parts are refused as it is");
    untouched(word);
    if (word) return;
    const uint8_t *l = lines->bytes + X4_CINDA_LINE * (size_t)(n - 1);
    static const uint64_t places[12] = {0, 126, 8, 15, 23, 4, 27, 6, 57, 22, 85, 40};
    for (int i = 0; i < 12; i++) {
        check(p[i] == places[i] + (i % 2 ? 0 : X4_CINDA_LINE * (uint64_t)(n - 1)), "its parts");
    }
    static const int bytes[] = {X4_CINDA_OPERATION, 0, X4_CINDA_ISOMER, 7, X4_CINDA_AREA, 33, X4_CINDA_WORK, 39,
                                X4_CINDA_READER, 40, X4_CINDA_HIERARCHY, 55, X4_CINDA_TYPE, 56};
    for (size_t i = 0; i < sizeof bytes / sizeof *bytes; i += 2) {
        check(a[0][bytes[i]] == l[bytes[i + 1]], "a character");
    }
    int many = !memcmp(l + 4, "MNY", 3);
    check(a[0][X4_CINDA_MANY] == (uint64_t)many && (!many || !a[0][X4_CINDA_A]), "many nuclei");
    if (!many) integer_is(a[0][X4_CINDA_A], l + 4, 3);
    integer_is(a[0][X4_CINDA_Z], l + 1, 3);
    integer_is(a[0][X4_CINDA_BLOCK], l + 34, 3);
    integer_is(a[0][X4_CINDA_SEQUENCE], l + 37, 2);
    integer_is(a[0][X4_CINDA_YEAR], l + 79, 4);
    integer_is(a[0][X4_CINDA_MONTH], l + 83, 2);
    check(!many || a[0][X4_CINDA_Z] == 999, "999 beside MNY");
    check(a[0][X4_CINDA_MONTH] >= 1 && a[0][X4_CINDA_MONTH] <= 12, "a month");
    energy_is(a[1], l + 41, copied ? copied + X4_CINDA_LINE * (size_t)(n - 1) + 41 : NULL);
    energy_is(a[2], l + 48, copied ? copied + X4_CINDA_LINE * (size_t)(n - 1) + 48 : NULL);
}

/* lines written back: refused as all are, or by 37; the copy is good, its own copy, and other in energies alone */
static int cinda_back(const Buffer *lines, Buffer *copy, Buffer *again, uint64_t verdict) {
    size_t n = lines->length, room = below(3) ? n : below(2) ? n + below(40) : below(n + 1);
    lay(copy, room);
    memset(copy->bytes, '#', room);
    uint64_t word = cinda_refused(x4_cinda_back(lines->bytes, n, copy->bytes, room));
    check(word == (verdict ? verdict : room < n ? 37 : 0), "a copy: refused as all are, or by 37");
    for (size_t i = word ? 0 : n; i < room; i++) {
        check(copy->bytes[i] == '#', "a refused copy stores nothing, and bytes behind the lines stay");
    }
    if (word) return 0;
    check(x4_cinda_check(copy->bytes, n) == 0, "a copy is good");
    for (size_t i = 0; i < n; i++) {
        size_t column = i % X4_CINDA_LINE;
        check((column >= 41 && column < 55) || copy->bytes[i] == lines->bytes[i], "every other byte as it was");
    }
    lay(again, n);
    check(!x4_cinda_back(copy->bytes, n, again->bytes, n) && !memcmp(again->bytes, copy->bytes, n), "its own copy");
    return 1;
}

static void cinda(Buffer *lines, Buffer *copy, Buffer *again) {
    size_t n = some_lines();
    fill(lines, work, n);
    uint64_t verdict = cinda_refused(x4_cinda_check(lines->bytes, n));
    check(verdict == cinda_due(work, n), "the first fault of all lines");
    const uint8_t *copied = cinda_back(lines, copy, again, verdict) ? copy->bytes : NULL;
    uint32_t count = (uint32_t)(n / X4_CINDA_LINE);
    for (uint32_t line = 0; line <= count + 1; line++) {
        cinda_line(lines, verdict, line, copied);
    }
    cinda_line(lines, verdict, (uint32_t)bits(), copied);
    check(!memcmp(lines->bytes, work, n), "the lines are only read");
}

/* ---- codes under DECAY-DATA */

static uint64_t code_refusals[128], taken_apart, no_codes;

/* what codes are made of, good or not */
static const char *code_pieces[] = {"(", "(1.)", "((2.)", "60-ND-139", "1-H-3-M", "25-MN-50-G", ",", ",", ",", ", ", ",,",
                                    "3.3D", "30.0MIN", "1.E5E", "B+", "DG/EC", "405.", "708./738.", "0.257", ")", ")", " ",
                                    "/", "A", "1.0", "TEXT", "\0", "((", "-M3", "12345678901"};
static const char *good_codes[] = {"(40-ZR-89-M)", "(60-ND-140,3.30D)", "(59-PR-140, ,B+/EC, ,0.500)",
                                   "(25-MN-50-G, 0.286SEC, B+, 6610.)", "(25-MN-50-M,1.76MIN,DG,785.,,B+)",
                                   "((1.)60-ND-138,5.04HR,DG,328.,0.065)", "(60-ND-139-M,5.5HR,DG,708./738.,0.64)"};

/* a code in some records of columns 12 to 66, broken behind some commas; at times changed, cut, or of pieces in any order */
static size_t some_records(void) {
    char text[600];
    size_t n = 0, records = 0, column = 11;
    memset(text, 0, sizeof text);
    if (below(3)) {
        strcpy(text, good_codes[below(sizeof good_codes / sizeof *good_codes)]);
    } else {
        for (size_t k = 1 + below(12); k > 0 && strlen(text) < 500; k--) {
            strcat(text, code_pieces[below(sizeof code_pieces / sizeof *code_pieces)]);
        }
    }
    n = strlen(text);
    if (n && !below(3)) text[below(n)] = "(),./-+ 01AEGMT#"[below(16)];
    memset(work, ' ', 20 * RECORD);
    for (size_t at = 0; at < n && records < 12; at++) {
        work[records * RECORD + column++] = (uint8_t)text[at];
        if (column == 66 || (text[at] == ',' && !below(3)) || !below(60)) {
            records++;
            column = below(12) ? 11 : 12 + below(3);
        }
    }
    records += 1 + (below(10) == 0);
    for (size_t i = 0; i < records; i++) {
        work[i * RECORD + RECORD - 1] = '\n';
    }
    size_t length = records * RECORD;
    return below(10) ? length : length - below(RECORD);
}

/* a run: its head, every group, type and energy, places inside it, numbers that the number reader reads so */
static void places_in(const uint8_t *run, size_t n, const uint64_t place[2], const uint64_t v[8]) {
    check(place[0] <= n && place[1] <= n - place[0], "a place in the run");
    if (!v) return;
    check(x4_is_number(v) == (place[1] > 0), "a number where it has a place");
    if (place[1] == 0) return;
    uint8_t field[11];
    uint64_t read[8];
    check(place[1] <= 11, "at most eleven characters");
    memset(field, ' ', 11);
    memcpy(field + 11 - place[1], run + place[0], place[1]);
    check(x4_read_number(field, 11, read) == 0 && !memcmp(read, v, 4 * sizeof *read), "its value is the number reader's");
    check(!v[4] && !v[5] && !v[6] && !v[7], "no digits are counted");
}

static void taken(const uint8_t *run, size_t n, int whole) {
    uint64_t places[15], half[8], numbers[4], abundance[8], place[2], value[8];
    uint64_t *lent = lend(15), word = x4_decay_head(run, n, lent, half);
    untouched(word);
    check(!whole || word == 0, "a run is a code");
    uint64_t groups = 0;
    if (word) {
        check(x4_refusal(word) == 50 && (word >> 8 & 0xffff) == 0 && x4_decay_before(word) <= n, "50, and how far");
        no_codes++;
    } else {
        memcpy(places, lent, sizeof places);
        for (int i = 0; i < 14; i += 2) {
            places_in(run, n, places + i, i == X4_DECAY_HALF ? half : NULL);
        }
        check(places[X4_DECAY_Z + 1] && places[X4_DECAY_SYMBOL + 1] && places[X4_DECAY_A + 1], "a nuclide");
        groups = places[X4_DECAY_GROUPS];
        taken_apart++;
    }
    for (uint32_t k = 0; k <= groups + 1; k++) {
        uint64_t there = x4_decay_group(run, n, k, numbers, abundance);
        check(there == (k >= 1 && k <= groups), "a group");
        places_in(run, n, numbers + 2, abundance);
        check(!there || numbers[0] || numbers[1] || numbers[3], "no group is empty");
        check(there || (!numbers[0] && !numbers[1] && !numbers[3]), "none is zeros");
        for (uint32_t i = 0; i <= numbers[0] + 1; i++) {
            check(x4_decay_type(run, n, k, i, place) == (i >= 1 && i <= numbers[0]), "a type");
            places_in(run, n, place, NULL);
            check((place[1] > 0) == (i >= 1 && i <= numbers[0]), "a type has characters");
        }
        for (uint32_t i = 0; i <= numbers[1] + 1; i++) {
            check(x4_decay_energy(run, n, k, i, place, value) == (i >= 1 && i <= numbers[1]), "an energy");
            places_in(run, n, place, value);
        }
    }
    uint32_t any = (uint32_t)bits(), other = (uint32_t)bits();
    check(any <= groups || !x4_decay_type(run, n, any, other, place), "no such group");
}

/* a code of a passage: refused with nothing stored, or a run that is a code, its own run, and no longer than the passage */
static void code_of(const Buffer *passage, Buffer *out, Buffer *again, uint32_t code) {
    size_t n = passage->length, room = below(3) ? n : below(80);
    lay(out, room);
    memset(out->bytes, '#', room);
    uint64_t length[1] = {0xa5a5}, word = x4_decay_in(passage->bytes, n, code, out->bytes, room, length);
    uint32_t number = x4_refusal(word);
    code_refusals[number & 127]++;
    check(number == 0 || number == 36 || number == 50 || number == 51 || number == 52, "a refusal of a code");
    check(x4_entry_refusal(word) == 0 && x4_entry_ordinal(word) == 0, "nothing else beside it");
    if (number == 50 || number == 51) {
        uint32_t record = x4_entry_record(word), column = x4_entry_column(word);
        check(column ? record >= 1 && record <= n / RECORD && column >= 12 && column <= 66
                     : number == 50 && record == n / RECORD + 1,
              "a place of the passage, or behind it");
    } else {
        check(word == number, "zeros beside it");
    }
    size_t stored = word ? 0 : length[0];
    check(!word || length[0] == 0xa5a5, "a refused call stores no length");
    check(stored <= n, "a run is no longer than its passage");
    for (size_t i = stored; i < room; i++) {
        check(out->bytes[i] == '#', "bytes behind the run stay");
    }
    if (word) return;
    lay(again, stored);
    memcpy(again->bytes, out->bytes, stored);
    taken(again->bytes, stored, 1);
    if (stored > 55) return;
    uint8_t record[RECORD], run[55];
    memset(record, ' ', sizeof record);
    memcpy(record + 11, out->bytes, stored);
    check(x4_decay_in(record, RECORD, 1, run, stored, length) == 0 && length[0] == stored && !memcmp(run, record + 11, stored),
          "a run is its own run");
    check(x4_decay_in(record, RECORD, 1, run, stored - 1, length) == 52, "one byte less is 52");
}

static void decays(Buffer *passage, Buffer *out, Buffer *again) {
    size_t n = some_records();
    fill(passage, work, n);
    for (uint32_t code = 0; code <= 3; code++) {
        code_of(passage, out, again, code);
    }
    code_of(passage, out, again, (uint32_t)bits());
    check(!memcmp(passage->bytes, work, n), "the passage is only read");
    size_t text = n < 66 ? n : 66;
    lay(again, text > 11 ? text - 11 : 0);
    memcpy(again->bytes, work + (text > 11 ? 11 : 0), again->length);
    while (again->length > 0 && again->bytes[again->length - 1] == ' ' && below(8)) {
        again->length--;
    }
    taken(again->bytes, again->length, 0);
}

/* codes of an entry: refused as its passage is, else as the passage in hand */
static void code_in_entry(const Buffer *entry, Buffer *out, uint64_t verdict) {
    static const char *pointers = " 1234AZ";
    uint32_t subentry = (uint32_t)below(4), code = (uint32_t)below(4);
    uint8_t pointer = (uint8_t)pointers[below(7)];
    uint64_t part[3], length[1], own[1];
    size_t room = below(4) ? entry->length : below(40);
    lay(out, room);
    memset(out->bytes, '#', room);
    uint64_t word = x4_decay(entry->bytes, entry->length, subentry, pointer, code, out->bytes, room, length);
    code_refusals[x4_refusal(word) & 127]++;
    uint64_t asked = x4_passage(entry->bytes, entry->length, subentry, (const uint8_t *)"DECAY-DATA", 10, pointer, part);
    if (asked) {
        check(word == asked && (verdict == 0) == (x4_refusal(word) != 31), "refused as its passage is");
        return;
    }
    static uint8_t second[MOST];
    memset(second, '#', room);
    uint64_t due = x4_decay_in(entry->bytes + part[0], part[1], code, second, room, own);
    if (x4_refusal(due) == 50 || x4_refusal(due) == 51) due += (part[0] / RECORD) << 24;
    check(word == due && (word || own[0] == length[0]) && !memcmp(second, out->bytes, room), "as the passage in hand");
}

/* ---- a held entry and a revision */

static uint64_t revision_refusals[128], merge_refusals[64], parts[3], merges;

/* whether a record opens an entry or a subentry */
static int opens(const uint8_t *record) { return !memcmp(record + 74, "00001", 5); }

/* the records of the subentry that begins with a byte of n */
static size_t extent(const uint8_t *bytes, size_t n, size_t at) {
    size_t past = at + RECORD;
    while (past + RECORD < n && !opens(bytes + past)) {
        past += RECORD;
    }
    return past - at;
}

/* a revision of the good entry that the first n bytes are: some subentries are dropped or made NOSUBENT, all are dated anew, and the
 * count is the true one */
static size_t revise(size_t n) {
    static const char *dates[] = {"20240105", "20240105", "20240106", "20231231", "20240205"};
    size_t count = 0;
    for (size_t at = RECORD; at + RECORD < n;) {
        size_t long_one = extent(work, n, at);
        memcpy(work + at + 25, dates[below(5)], 8);
        if (at > RECORD && !below(4)) {
            memmove(work + at, work + at + long_one, n - at - long_one);
            n -= long_one;
            continue;
        }
        if (at > RECORD && !below(6)) {
            memcpy(work + at, "NOSUBENT   ", 11);
            memmove(work + at + RECORD, work + at + long_one, n - at - long_one);
            n -= long_one - RECORD;
            long_one = RECORD;
        }
        count++;
        at += long_one;
    }
    char text[16];
    snprintf(text, sizeof text, below(4) ? "%11zu" : "%011zu", count);
    memcpy(work + n - RECORD + 11, text, 11);
    memcpy(work + 25, dates[below(5)], 8);
    return n;
}

/* another accession on all n bytes, or on those of a subentry */
static void rename_all(uint8_t *bytes, size_t n, const uint8_t accession[5]) {
    for (size_t at = 0; at + RECORD <= n; at += RECORD) {
        if (opens(bytes + at)) {
            memcpy(bytes + at + (memcmp(bytes + at, "ENTRY ", 6) ? 14 : 17), accession, 5);
        }
        memcpy(bytes + at + 66, accession, 5);
    }
}

/* 001 of another file in the place of the one that the n bytes have */
static size_t other_first(size_t n, size_t count, char **names) {
    static uint8_t kept[ROOM / 4];
    uint8_t accession[5];
    memcpy(kept, work, n);
    memcpy(accession, work + 17, 5);
    size_t m = add_file(0, ROOM / 4, count, names), own = extent(kept, n, RECORD), other = extent(work, m, RECORD);
    rename_all(work, m, accession);
    memcpy(work, kept, RECORD);
    memcpy(work + RECORD + other, kept + RECORD + own, n - RECORD - own);
    return n - own + other;
}

/* what is due before anything is looked for: 60 with the held entry, 60 with the revision, 61, or 0 */
static uint64_t pair_due(const Buffer *held, const Buffer *revision) {
    uint64_t totals[4];
    uint64_t one = judged(held->bytes, held->length, totals), two = judged(revision->bytes, revision->length, totals);
    if (one) return 60 | (one & UINT64_C(0xffffffffff00)) | UINT64_C(1) << 48;
    if (two) return 60 | (two & UINT64_C(0xffffffffff00)) | UINT64_C(2) << 48;
    return memcmp(held->bytes + 17, revision->bytes + 17, 5) ? 61 : 0;
}

/* the record that opens a subentry, or none */
static const uint8_t *opening(const Buffer *entry, uint32_t n) {
    char digits[4];
    snprintf(digits, sizeof digits, "%03" PRIu32, n % 1000);
    for (size_t at = RECORD; n < 1000 && at + RECORD < entry->length; at += RECORD) {
        if (opens(entry->bytes + at) && !memcmp(entry->bytes + at + 71, digits, 3)) return entry->bytes + at;
    }
    return NULL;
}

/* a subentry of two entries: its word, and where it is; it is what the openings and their dates say */
static uint64_t handed_out(const Buffer *held, const Buffer *revision, uint64_t due, uint32_t n, const uint8_t **bytes,
                           size_t *length) {
    uint64_t word = x4_subentry(held->bytes, held->length, revision->bytes, revision->length, n, lend(3));
    const uint64_t *p = (const uint64_t *)(void *)lent.bytes;
    untouched(word);
    revision_refusals[x4_refusal(word) & 127]++;
    *bytes = NULL;
    *length = 0;
    if (due) {
        check(word == due, "60 with the entry's refusal, or 61");
        return word;
    }
    const uint8_t *one = opening(held, n), *two = opening(revision, n);
    const uint8_t *chosen = !one || (two && memcmp(two + 25, one + 25, 8) >= 0) ? two : one;
    check(word == (!chosen ? 32 : !memcmp(chosen, "NOSUBENT", 8) ? 62 : 0), "32, 62, or a part");
    if (word) return word;
    /* of an entry and itself it is the revision's */
    const Buffer *holder = chosen == two ? revision : held;
    check(p[0] == (chosen == two ? X4_REVISION : X4_HELD), "which of the two holds it");
    check(p[1] + p[2] <= holder->length && p[1] % RECORD == 0 && p[2] % RECORD == 0, "whole records of that entry");
    check(holder->bytes + p[1] == chosen && p[2] == extent(holder->bytes, holder->length, p[1]), "the whole subentry");
    check(!memcmp(chosen + p[2] - RECORD, "ENDSUBENT  ", 11), "up to ENDSUBENT");
    parts[p[0]]++;
    *bytes = chosen;
    *length = p[2];
    return word;
}

/* the merge, where it is delivered: accepted, its ends, and each subentry as it is handed out */
static void delivered(const Buffer *held, const Buffer *revision, Buffer *out, size_t length, Buffer *again) {
    uint64_t totals[4];
    Buffer merge = {out->pages, out->bytes, length};
    check(judged(merge.bytes, length, totals) == 0, "a merge is accepted");
    uint8_t first[RECORD], last[RECORD];
    char count[16];
    memcpy(first, revision->bytes, RECORD);
    memcpy(last, revision->bytes + revision->length - RECORD, RECORD);
    if (memcmp(held->bytes + 25, first + 25, 8) > 0) memcpy(first + 25, held->bytes + 25, 8);
    snprintf(count, sizeof count, "%11" PRIu64, totals[0]);
    memcpy(last + 11, count, 11);
    check(!memcmp(merge.bytes, first, RECORD), "ENTRY with the later date");
    check(!memcmp(merge.bytes + length - RECORD, last, RECORD), "ENDENTRY with the true count");
    const uint8_t *one, *two;
    size_t n, m;
    for (uint32_t k = 1; k < 999; k++) {
        if (k > 4 && !opening(held, k) && !opening(revision, k)) continue;
        uint64_t word = handed_out(held, revision, 0, k, &one, &n);
        check(handed_out(&merge, &merge, 0, k, &two, &m) == word && n == m && (!n || !memcmp(one, two, n)),
              "a subentry is that of the merge");
    }
    if (2 * length > ROOM) return;
    lay(again, 2 * length);
    uint64_t word = x4_merge(merge.bytes, length, merge.bytes, length, again->bytes, again->length, lend(1));
    check(word == 0 && *(const uint64_t *)(void *)lent.bytes == length && !memcmp(again->bytes, merge.bytes, length),
          "a merge is its own merge");
    merges++;
}

static void merged(const Buffer *held, const Buffer *revision, uint64_t due, Buffer *out, Buffer *again) {
    static uint8_t before[ROOM];
    size_t limit = held->length + revision->length, room = below(2) ? limit + below(100) : below(limit + 100);
    lay(out, room);
    memset(before, '#', room);
    memcpy(out->bytes, before, room);
    uint64_t word = x4_merge(held->bytes, held->length, revision->bytes, revision->length, out->bytes, room, lend(1));
    uint64_t length = *(const uint64_t *)(void *)lent.bytes;
    revision_refusals[x4_refusal(word) & 127]++;
    if (due || room < limit) {
        check(word == (due ? due : 37), "60, 61, then 37");
        untouched(word);
        check(!memcmp(out->bytes, before, room), "a refused merge stores nothing");
        return;
    }
    check(length <= limit && !memcmp(out->bytes + length, before, room - length), "bytes behind a merge stay");
    if (word) {
        uint32_t own = x4_entry_refusal(word);
        check(x4_refusal(word) == 63 && !(word >> 48) && (own == 1 || own == 13 || own == 14 || own == 17), "63");
        check(x4_entry_record(word) <= length / RECORD, "a record of the merge");
        memset(before, ' ', length);
        check(!memcmp(out->bytes, before, length), "63 leaves blanks");
        merge_refusals[own]++;
        return;
    }
    delivered(held, revision, out, (size_t)length, again);
}

static void revisions(Buffer *held, Buffer *revision, Buffer *out, Buffer *again, size_t count, char **names) {
    static uint8_t base[ROOM / 4], kept[2][ROOM / 2];
    size_t n = add_file(0, ROOM / 4, count, names);
    if (n < 4 * RECORD || n % RECORD) return;
    memcpy(base, work, n);
    Buffer *both[2] = {held, revision};
    for (int i = 0; i < 2; i++) {
        memcpy(work, base, n);
        size_t m = below(3) || i == 0 ? n : other_first(n, count, names);
        m = revise(m);
        if (!below(12)) {
            work[17 + below(5)] = '7';
            uint8_t accession[5];
            memcpy(accession, work + 17, 5);
            rename_all(work, m, accession);
        }
        if (!below(5)) m = mutate(m);
        fill(both[i], work, m);
        memcpy(kept[i], work, m);
    }
    uint64_t due = pair_due(held, revision);
    const uint8_t *bytes;
    size_t length;
    for (uint32_t k = 0; k < 5; k++) {
        handed_out(held, revision, due, k, &bytes, &length);
    }
    handed_out(held, revision, due, (uint32_t)below(1100), &bytes, &length);
    handed_out(held, revision, due, (uint32_t)bits(), &bytes, &length);
    merged(held, revision, due, out, again);
    for (int i = 0; i < 2; i++) {
        check(!memcmp(both[i]->bytes, kept[i], both[i]->length), "both entries are only read");
    }
}

int main(int count, char **words) {
    if (count < 4) {
        fputs("fuzz SEED ROUNDS FILE..\n", stderr);
        return 2;
    }
    uint64_t first = strtoull(words[1], NULL, 10), rounds = strtoull(words[2], NULL, 10), accepted = 0;
    check(x4_version() == X4_VERSION, "another version");
    Buffer entry = fenced(), copy = fenced(), again = fenced(), keyword = fenced(), field = fenced(), index = fenced();
    for (seed = first; seed < first + rounds; seed++) {
        state = seed;
        size_t n = mutate(add_file(0, MOST, (size_t)count - 3, words + 3));
        fill(&entry, work, n);
        uint64_t totals[4], verdict = judged(entry.bytes, n, totals);
        accepted += verdict == 0;
        explained_by(x4_explain, x4_judge, &entry, verdict, totals);
        for (int i = 0; i < 8; i++) {
            questions(&entry, &keyword, verdict);
        }
        for (int i = 0; i < 4; i++) {
            code_in_entry(&entry, &copy, verdict);
        }
        copies(&entry, &copy, &again, verdict, totals);
        for (int i = 0; i < 8; i++) {
            fields(&field);
        }
        check(!memcmp(entry.bytes, work, n), "the entry is only read");
        indexes(&entry, &index, &copy, &keyword, verdict, totals);
        walks_of(&entry, &index, &copy, verdict);
        transmissions(&entry, &copy, &again, (size_t)count - 3, words + 3);
        for (int i = 0; i < 8; i++) {
            any_decimal();
        }
        for (int i = 0; i < 4; i++) {
            cinda(&entry, &copy, &again);
        }
        for (int i = 0; i < 8; i++) {
            decays(&entry, &copy, &again);
        }
        for (int i = 0; i < 4; i++) {
            revisions(&entry, &keyword, &copy, &again, (size_t)count - 3, words + 3);
        }
    }
    printf("seeds %" PRIu64 " to %" PRIu64 ": %" PRIu64 " entries accepted, ", first, first + rounds - 1, accepted);
    printf("%" PRIu64 " questions and copies, by refusal", asked);
    for (int i = 0; i < 64; i++) {
        if (refusals[i]) {
            printf(" %d:%" PRIu64, i, refusals[i]);
        }
    }
    printf("; by an index, by refusal");
    for (int i = 0; i < 64; i++) {
        if (by_index[i]) {
            printf(" %d:%" PRIu64, i, by_index[i]);
        }
    }
    printf(", %" PRIu64 " of them the full answers, %" PRIu64 " rows found", own_answers, rows_found);
    printf("; walks by refusal");
    for (int i = 0; i < 64; i++) {
        if (walks[i]) {
            printf(" %d:%" PRIu64, i, walks[i]);
        }
    }
    printf(", %" PRIu64 " values, %" PRIu64 " fields malformed, %" PRIu64 " times done", walked, malformed, ended);
    printf("; doubles by refusal");
    for (int i = 0; i < 64; i++) {
        if (doubles[i]) {
            printf(" %d:%" PRIu64, i, doubles[i]);
        }
    }
    printf(", %" PRIu64 " of them doubles, %" PRIu64 " outside, in hand %" PRIu64 " doubles, %" PRIu64 " outside",
           double_kinds[1], double_kinds[2], in_hand[1], in_hand[2]);
    printf("; transmissions by refusal");
    for (int i = 0; i < 64; i++) {
        if (file_refusals[i]) {
            printf(" %d:%" PRIu64, i, file_refusals[i]);
        }
    }
    printf(", %" PRIu64 " of them refused in an entry, %" PRIu64 " entries begun; lines by refusal", inside, begun);
    for (int i = 0; i < 128; i++) {
        if (line_refusals[i]) {
            printf(" %d:%" PRIu64, i, line_refusals[i]);
        }
    }
    printf("; codes by refusal");
    for (int i = 0; i < 128; i++) {
        if (code_refusals[i]) {
            printf(" %d:%" PRIu64, i, code_refusals[i]);
        }
    }
    printf(", %" PRIu64 " runs taken apart, %" PRIu64 " texts that are none", taken_apart, no_codes);
    printf("; revisions by refusal");
    for (int i = 0; i < 128; i++) {
        if (revision_refusals[i]) {
            printf(" %d:%" PRIu64, i, revision_refusals[i]);
        }
    }
    printf(", %" PRIu64 " parts of held entries, %" PRIu64 " of revisions, %" PRIu64 " merges, refused by", parts[1], parts[2],
           merges);
    for (int i = 0; i < 64; i++) {
        if (merge_refusals[i]) {
            printf(" %d:%" PRIu64, i, merge_refusals[i]);
        }
    }
    printf("; reasons by kind");
    for (int i = 0; i < 7; i++) {
        printf(" %d:%" PRIu64, i, kinds[i]);
    }
    putchar('\n');
    return 0;
}
