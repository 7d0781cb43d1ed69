/* The functions of the proved archives (host/archives) for C.
 *
 * A slice of bytes or of numbers is a pointer and a length. Every call answers for every argument: nothing has to be
 * tested before, but a pointer must be that of so many bytes or numbers. The numbers are document 01's; the count of
 * digits is that of document 02, M-104, refusal 17 that of M-105, transmissions are those of M-100, reasons those of
 * M-108, the index is that of M-102, walks are those of M-112, doubles those of M-107, CINDA lines those of M-113,
 * codes under DECAY-DATA those of M-106, and revisions those of M-109.
 *
 * A call returns a word, 0 where it is answered, and then stores what it answers in the array that is lent to it, as
 * long as its parameter says. The words of x4_double, x4_index_double and x4_read_double have more in them, as is said
 * below. A refused call stores nothing, with these exceptions: x4_explain and x4_explain_file store the reason that they
 * are asked for; x4_walk_next with 15, the refusal of the value alone, the value's place and the walk; x4_merge with 63
 * blanks, and how many. The groups, types and energies of a code are given or not, and say so by 1 or 0 in place of a word.
 *
 *     bits    the word that a call returns
 *     0-7     the number of its refusal; 0 answered
 *     8-15    the refusal of the entry or transmission: of a refused verdict the same number, beside 31, 60 and 63 the
 *             verdict's, else 0
 *     16-23   its column
 *     24-47   its record
 *     48-63   the ordinal of the entry in a transmission; 0 for a single entry, beside 1 and 16, and outside entries;
 *             beside 60 which of two entries is refused
 *
 *     totals[0] subentries    value[0] 0 blank, 1 number                     part[0] first byte of the entry, from 0
 *     totals[1] keywords      value[1] 1 below zero, else 0                  part[1] length in bytes
 *     totals[2] DATA lines    value[2] coefficient                           part[2] the pointer; a blank is none
 *     totals[3] numbers       value[3] power of ten, two's complement
 *                             value[4] count of digits written
 *                             value[5] to value[7] zeros
 *
 *     facts[0]                          facts[1]                                      facts[2]
 *     0 nothing more is said            0                                             0
 *     1 a count                         what is announced                             what is true
 *     2 a range                         the least                                     the greatest; 0 is none
 *     3 the subentry before             its number; 0 is none                         0
 *     4 the first equal heading         its record, counted as the verdict counts     the first column of its field
 *     5 the pointer                     its byte                                      0
 *     6 the expected characters         0                                             0
 *
 * The expected characters stand in characters[8]: eight with refusal 5; with 6 five, and three blanks. It has eight
 * blanks beside every other kind.
 *
 * Digits count from the first that is not zero to the last written, before and behind the point, none of the exponent:
 * 3 in 0.140, 2 in 0.14, 3 in 100., 1 in 1.+2, 0 in zero and in a blank, at most 10. The canonical copy has the same
 * values, but may have other counts.
 */
#ifndef X4_H
#define X4_H

#include <stddef.h>
#include <stdint.h>

#ifdef __cplusplus
extern "C" {
#endif

/* What this header describes; x4_version() is the same of the archives. */
#define X4_VERSION 4

uint32_t x4_version(void);

/* The verdict on an entry: its totals, or refusal 1 to 17 with its record and column. 17 is a number under FLAG or
 * DECAY-FLAG with an exponent, or one under FLAG that equals no code under the keyword FLAG. */
uint64_t x4_judge(const uint8_t *entry, size_t length, uint64_t totals[4]);

/* The value in a line and a column of section 1 (COMMON, line 1 only) or 2 (DATA) of a subentry, and the count of its
 * digits. Refusals: 31 entry refused, 32 no such subentry, 33 no such section, 34 no such line, 35 no such column. */
uint64_t x4_value(const uint8_t *entry, size_t length, uint32_t subentry, uint32_t section, uint32_t line,
                  uint32_t column, uint64_t value[8]);

/* The heading of a column and its unit, ten columns of the entry, with the heading's pointer beside either. Refusals:
 * 31, 32, 33, 35. */
uint64_t x4_heading(const uint8_t *entry, size_t length, uint32_t subentry, uint32_t section, uint32_t column,
                    uint64_t part[3]);
uint64_t x4_unit(const uint8_t *entry, size_t length, uint32_t subentry, uint32_t section, uint32_t column,
                 uint64_t part[3]);

/* The passage with a keyword, ten bytes, and a pointer, blank for none: whole records. Refusals: 31, 32, 33, 36 no such
 * passage. A keyword that is not ten bytes long has none. */
uint64_t x4_passage(const uint8_t *entry, size_t length, uint32_t subentry, const uint8_t *keyword,
                    size_t keyword_length, uint8_t pointer, uint64_t part[3]);

/* Stores the canonical copy in the front of a buffer that does not overlap the entry; columns under FLAG and DECAY-FLAG
 * stay as they were. Refusals: 31, 37 buffer shorter than the entry. */
uint64_t x4_copy(const uint8_t *entry, size_t length, uint8_t *out, size_t out_length);

/* What a number field says, and the count of its digits. Refusals: 40 not eleven bytes, 15 malformed. */
uint64_t x4_read_number(const uint8_t *field, size_t length, uint64_t value[8]);

/* Writes the canonical field of negative (0 no, else yes), coefficient and power of ten. Returns the number alone: 0
 * done, 40 buffer not eleven bytes, 41 no field reads to the value. */
uint32_t x4_write_number(uint32_t negative, uint64_t coefficient, int32_t power, uint8_t *out, size_t length);

/* ---- transmissions: TRANS, one or more entries, ENDTRANS; 200,000 records at the most, an entry 20,000 */

/* The verdict on a transmission: the totals of all its entries, or refusal 1 to 17 with its record, counted from TRANS,
 * its column, and the ordinal of the entry that it is in. */
uint64_t x4_judge_file(const uint8_t *file, size_t length, uint64_t totals[4]);

/* How many bytes the entry has that begins with byte `at`, counted from 0: from its ENTRY record up to and with the
 * first ENDENTRY record, 20,000 records at the most; 0 where none begins there. No rule is made. In an accepted
 * transmission the first begins at byte 81, and each other where the one before it ends:
 *
 *     for (size_t at = 81, n; (n = x4_entry_length(file, length, at)) != 0; at += n) .. x4_value(file + at, n, ..) ..
 */
size_t x4_entry_length(const uint8_t *file, size_t length, size_t at);

/* Stores the canonical copy of a transmission in the front of a buffer that does not overlap it: TRANS and ENDTRANS as
 * they are, each entry its own copy. Refusals: 31, 37 buffer shorter than the transmission. */
uint64_t x4_copy_file(const uint8_t *file, size_t length, uint8_t *out, size_t out_length);

/* ---- why: the verdict once more, and the facts of its refusal */

/* The word of x4_judge or x4_judge_file for the same bytes, and their totals, which are stored only where it is 0.
 * The reason is stored always, in facts and characters: 6 with refusals 5 and 6; 1 or 2 with 8; 3 with 9; 4 with 13; 5
 * with 14; 0 with every other refusal and where the word is 0.
 *
 * With 8 the announced count is that of the record itself; where ENDBIB says its own truly, it is N1 of BIB, and the
 * true one is the number of its keywords. In a transmission the record of an equal heading counts from TRANS. */
uint64_t x4_explain(const uint8_t *entry, size_t length, uint64_t totals[4], uint64_t facts[3], uint8_t characters[8]);
uint64_t x4_explain_file(const uint8_t *file, size_t length, uint64_t totals[4], uint64_t facts[3],
                         uint8_t characters[8]);

/* ---- an index of subentries, kept beside the entry: questions by it judge nothing and read a few records */

/* Makes the index of an entry in the front of a slice of so many numbers: five to a subentry in entry order, NOSUBENT
 * too. They are
 *
 *     its number, its first record, and the records BIB, COMMON and DATA, 0 where there is none
 *
 * and rows[0] is how many such rows there are; numbers past them stay. Refusals: 31; 38 slice too short for the rows. An
 * entry has 998 subentries at the most, so 4,990 numbers are always enough; totals[0] of x4_judge says how many it has.
 * The slice does not overlap the entry. */
uint64_t x4_index(const uint8_t *entry, size_t length, uint32_t *index, size_t numbers, uint64_t rows[1]);

/* How many rows of an index stand before the first one of a subentry. Refusals: 38 numbers that are not whole rows, 32
 * no row of it. The five numbers from index + 5 * before[0] on are by themselves an index of one row: a program that goes
 * through a table finds the row once and asks by these five. */
uint64_t x4_index_row(const uint32_t *index, size_t numbers, uint32_t subentry, uint64_t before[1]);

/* The questions by an index. Cut it to its rows: numbers is 5 * rows[0]. For an accepted entry and the index made for it
 * every answer is that of the full question, x4_value to x4_passage.
 *
 * With any other bytes and any other numbers there is an answer, too: the first row of the subentry is taken, then its
 * first record is read, the section's record, and the field's, or BIB's text records up to the passage's end. Refusals:
 *
 *     38       the numbers are not whole rows of five
 *     32       no row has the number, or the first record is NOSUBENT
 *     33-36    as in the full question, by what the row and the section's record say
 *     39       a record that is read lies outside the entry; or the first one is not SUBENT with this number, the
 *              section's not BIB, COMMON or DATA with its counts in form and range, or the asked field, and beside a unit
 *              its heading, not in form. The entry was changed, or the numbers are another's, altered, or not cut to
 *              the rows.
 *
 * in the order of these reads. The entry is not judged: 31 is never given, and nothing else of it is looked at. Zeros
 * stand beside each number. */
uint64_t x4_index_value(const uint8_t *entry, size_t length, const uint32_t *index, size_t numbers, uint32_t subentry,
                        uint32_t section, uint32_t line, uint32_t column, uint64_t value[8]);
uint64_t x4_index_heading(const uint8_t *entry, size_t length, const uint32_t *index, size_t numbers,
                          uint32_t subentry, uint32_t section, uint32_t column, uint64_t part[3]);
uint64_t x4_index_unit(const uint8_t *entry, size_t length, const uint32_t *index, size_t numbers, uint32_t subentry,
                       uint32_t section, uint32_t column, uint64_t part[3]);

/* As the others. A keyword that is not ten bytes long is never answered: 36 when all text records were read, 39 where
 * they leave the entry. */
uint64_t x4_index_passage(const uint8_t *entry, size_t length, const uint32_t *index, size_t numbers,
                          uint32_t subentry, const uint8_t *keyword, size_t keyword_length, uint8_t pointer,
                          uint64_t part[3]);

/* ---- values in order: one judging, and then a table is gone through, left to right and line by line */

/* Begins a walk over the values of section 1 (COMMON) or 2 (DATA) of a subentry. The walk is where it stands, as numbers:
 *
 *     the section's record, its columns and its lines, and the line and the column of the next value
 *
 * Refusals: 31, 32, 33; nothing is stored, so the walk is what it was before. Five zeros are a walk that is done: set
 * them first, and a refused walk is done at once, whether the word is looked at or not. */
uint64_t x4_walk(const uint8_t *entry, size_t length, uint32_t subentry, uint32_t section, uint32_t walk[5]);

/* The next value: place[0] is 1, place[1] and place[2] are its line and column, value is as of x4_value, and the walk
 * then stands behind it. Where no value is left, place is 0 0 0, and walk and value stay as they are; so in every further
 * call. Over an accepted entry each place of the table is given once, with the value and the count of digits of x4_value:
 *
 *     uint64_t place[3], value[8];
 *     uint32_t walk[5] = {0};
 *     if (x4_walk(entry, length, 2, 2, walk) == 0)
 *         while (x4_walk_next(entry, length, walk, place, value), place[0]) .. place[1], place[2], value ..
 *
 * Returns 0; or 15 where the field is malformed, which no accepted entry has: place and walk are stored, and value stays.
 * So the walk goes on behind such a field; one that stayed there would never be done. With any five numbers and any bytes
 * there is an answer, and nothing is judged. A walk that stands at no place of a table as large as a table can be, its
 * record at most 20,000, 18 columns and 20,000 lines, is done; so every walk ends. A field of no whole record of the entry
 * is given as a blank. None of the arrays overlaps another or the entry. */
uint64_t x4_walk_next(const uint8_t *entry, size_t length, uint32_t walk[5], uint64_t place[3], uint64_t value[8]);

/* ---- doubles: each value is blank, a double, or a decimal that is outside the simple range
 *
 * Simple is a decimal whose coefficient has ten digits at the most and whose power lies in -22 to 22: its double is the
 * coefficient times, or divided by, that power of ten, rounded once, so the nearest one there is, a tie to the even one.
 * Every field has ten digits at the most, so of a value the power alone decides: that of its decimal, as x4_value has it,
 * whose coefficient does not end in a zero. 10.+22 has the power 23, and .1+23 the power 22. A whole number below 2 to the
 * 53rd in size is its double exactly. The double of a value or a field is never -0.0, an infinity or a NaN.
 *
 * Three calls store the double where there is one, and their word tells which of the three it is. Of a blank, of a decimal
 * outside the range and where it is refused the lent place stays as it is.
 *
 *     bits    the word of x4_double, x4_index_double and x4_read_double
 *     0-47    as in every word, 0 where it is answered
 *     48-55   0 blank, and where it is refused; 1 a double; 2 a decimal outside the simple range
 *     56-63   the count of digits written in the field; 0 where it is refused
 *
 * So the word is not 0 where it is a double or a decimal outside: ask x4_refusal for its refusal, and x4_double_kind and
 * x4_double_digits for the rest. A single entry has no ordinal, and x4_entry_ordinal says nothing of these words.
 *
 *     double x[1];
 *     uint64_t word = x4_double(entry, length, 2, 2, 1, 2, x);
 *     if (x4_double_kind(word) == 1) .. x[0] ..
 *
 * A fitting code goes through its table with one judging and takes each decimal as a double:
 *
 *     uint64_t place[3], value[8];
 *     uint32_t walk[5] = {0};
 *     if (x4_walk(entry, length, 2, 2, walk) == 0)
 *         while (x4_walk_next(entry, length, walk, place, value), place[0]) {
 *             if (!x4_is_number(value)) continue;
 *             double x = x4_as_double((uint32_t)value[1], value[2], x4_power(value));
 *             if (x == 0 && value[2] != 0) .. outside the simple range: the exact decimal is in value ..
 *             else .. place[1], place[2], x ..
 *         }
 */

/* The value in a line and a column of a section, as x4_value has it. Refusals: 31 to 35. The exact decimal of one that is
 * outside the range is x4_value's. Each call judges the entry, so for many values take a walk or an index. */
uint64_t x4_double(const uint8_t *entry, size_t length, uint32_t subentry, uint32_t section, uint32_t line,
                   uint32_t column, double value[1]);

/* The same by an index, as x4_index_value has it: nothing is judged. Refusals: 32 to 35, 38, 39. */
uint64_t x4_index_double(const uint8_t *entry, size_t length, const uint32_t *index, size_t numbers, uint32_t subentry,
                         uint32_t section, uint32_t line, uint32_t column, double value[1]);

/* What a number field says, as x4_read_number has it. Refusals: 15, 40. */
uint64_t x4_read_double(const uint8_t *field, size_t length, double value[1]);

/* A decimal in hand, as x4_write_number takes one: negative (0 no, else yes), coefficient and power of ten. The double is
 * returned, +0.0 where there is none; the second returns the kind alone: 1, or 2 where the coefficient has more than ten
 * digits or the power is outside -22 to 22. A blank value is no decimal: ask x4_is_number first.
 *
 * The three numbers are taken as they stand: the power is the one handed over, not that of the value. So 10 with power 22 is
 * a double, 10 with power -23 is outside, and so is 0 with power 23. Those that a call of this library stored are always the
 * value's own. A zero that is simple is +0.0, however it is signed. */
double x4_as_double(uint32_t negative, uint64_t coefficient, int32_t power);
uint64_t x4_as_double_kind(uint32_t negative, uint64_t coefficient, int32_t power);

/* ---- lines in the CINDA2001 layout: 125 columns and a line feed, 126 bytes; 1 to 20,000 of them
 *
 *     bits    the word of these four calls
 *     0-7     the number of the refusal; 0 answered
 *     16-23   the column, from 1; 0 beside 70, 34 and 37
 *     24-47   the line, from 1; 0 beside 70, 34 and 37
 *
 * and all other bits are 0. Refusals, of which 70 comes first, then the first line with a fault, its lowest number, its
 * leftmost column:
 *
 *     70  length: none, not whole lines, more than 20,000 lines
 *     71  byte 126 is not a line feed                                     column 126
 *     72  a character that is not permitted                               that one
 *     73  the operation is not A, D or M                                  column 1
 *     74  target: Z and A are integers, right-adjusted with blanks in     columns 2, 5, 8
 *         front, Z is 999 where A is MNY; the isomer is a blank or a
 *         digit
 *     75  the block is no capital or digit and an integer, the sequence   columns 34, 38
 *         no integer; both are required
 *     76  an energy that is neither blank nor a number field, of which    columns 42, 49
 *         column 7 is the last
 *     77  the reference date is not YYYYMM, month 01-12                   column 80
 *
 * Everything else is judged as characters alone. A refused call stores nothing. */

/* Whether all lines are good. */
uint64_t x4_cinda_check(const uint8_t *lines, size_t length);

/* The fields of one line, which counts from 1. Its numbers and its single characters, these by their bytes:
 *
 *     numbers[X4_CINDA_OPERATION]  A add, D delete, M modify     numbers[X4_CINDA_WORK]       work type
 *     numbers[X4_CINDA_Z]          Z of the target               numbers[X4_CINDA_READER]     reader code
 *     numbers[X4_CINDA_A]          A of it; 0 where it is many   numbers[X4_CINDA_HIERARCHY]  hierarchy code
 *     numbers[X4_CINDA_MANY]       1 where A is MNY, else 0      numbers[X4_CINDA_TYPE]       reference type
 *     numbers[X4_CINDA_ISOMER]     a blank or a digit            numbers[X4_CINDA_YEAR]       year of the reference
 *     numbers[X4_CINDA_AREA]       area of the block             numbers[X4_CINDA_MONTH]      month, 1 to 12
 *     numbers[X4_CINDA_BLOCK]      number of the block
 *     numbers[X4_CINDA_SEQUENCE]   sequence in the block
 *
 * The least and the greatest energy are values as x4_value has them, blank or a number, with the count of digits.
 * Refusals: 70 to 77, as all lines are checked, then 34 no such line. So one who goes through many lines checks them once,
 * and hands over one at a time, which is looked at alone:
 *
 *     if (x4_cinda_check(lines, length) == 0)
 *         for (size_t at = 0; at < length; at += X4_CINDA_LINE)
 *             x4_cinda_line(lines + at, X4_CINDA_LINE, 1, numbers, least, greatest); .. numbers, least, greatest ..
 */
uint64_t x4_cinda_line(const uint8_t *lines, size_t length, uint32_t line, uint64_t numbers[14], uint64_t least[8],
                       uint64_t greatest[8]);

/* One line and its texts as parts of the lines: first byte, from 0, and length of
 *
 *     places[0] the line, 126 bytes           places[4] quantity, columns 24-27      places[8] reference code, 58-79
 *     places[2] reaction, columns 9-23        places[6] institute, columns 28-33     places[10] comment, 86-125
 *
 * each with its length behind it. Refusals as of x4_cinda_line. */
uint64_t x4_cinda_pieces(const uint8_t *lines, size_t length, uint32_t line, uint64_t places[12]);

/* Writes the lines to the front of a buffer that does not overlap them: each energy in its canonical field of seven columns,
 * right-adjusted, and every other byte as it is. Bytes of the buffer behind the lines stay. Refusals: 70 to 77, then 37
 * buffer shorter than the lines. */
uint64_t x4_cinda_back(const uint8_t *lines, size_t length, uint8_t *out, size_t room);

/* how many bytes a line has, and how many lines there may be */
#define X4_CINDA_LINE 126
#define X4_CINDA_MOST 20000

/* the places of numbers */
enum {
    X4_CINDA_OPERATION,
    X4_CINDA_Z,
    X4_CINDA_A,
    X4_CINDA_MANY,
    X4_CINDA_ISOMER,
    X4_CINDA_AREA,
    X4_CINDA_BLOCK,
    X4_CINDA_SEQUENCE,
    X4_CINDA_WORK,
    X4_CINDA_READER,
    X4_CINDA_HIERARCHY,
    X4_CINDA_TYPE,
    X4_CINDA_YEAR,
    X4_CINDA_MONTH
};

/* the places of the parts of a line; the length of each stands behind it */
enum {
    X4_CINDA_WHOLE = 0,
    X4_CINDA_REACTION = 2,
    X4_CINDA_QUANTITY = 4,
    X4_CINDA_INSTITUTE = 6,
    X4_CINDA_REFERENCE = 8,
    X4_CINDA_COMMENT = 10
};

/* ---- codes under DECAY-DATA: ((flag)nuclide,half-life,type,energy,abundance,type,..)
 *
 * A code is an optional flag, digits and a point in parentheses; a nuclide Z-S-A-X; an optional half-life, a number and a
 * unit; and groups by position, each of types, energies and an abundance, types and energies split by slashes. Every record
 * of a passage under DECAY-DATA with ( in column 12 opens a code, counted from 1. A code breaks, the rest of its record
 * blank, only after a comma, and goes on in column 12; text behind it is passed over.
 *
 * A code is taken out as a run: one text without breaks, numbers but the flag in their shortest spelling, the rest as it
 * was. Its fields are asked of the run, in which they are places: the first character, from 0, and how many. So an entry is
 * judged once a code, or once for all of them: take the passage by an index, and its codes by x4_decay_in.
 *
 *     uint8_t run[4096];
 *     uint64_t word, part[3], length[1], places[15], half[8], numbers[4], abundance[8], place[2], energy[8];
 *     if (x4_index_passage(entry, n, index, 5 * rows[0], 2, (const uint8_t *)"DECAY-DATA", 10, ' ', part) == 0)
 *         for (uint32_t j = 1;; j++) {
 *             word = x4_decay_in(entry + part[0], part[1], j, run, sizeof run, length);
 *             if (x4_refusal(word) == 36) break;
 *             if (word) { .. x4_refusal(word), x4_entry_record(word), x4_entry_column(word) ..; continue; }
 *             x4_decay_head(run, length[0], places, half);
 *             printf("%.*s", (int)places[X4_DECAY_SYMBOL + 1], (const char *)run + places[X4_DECAY_SYMBOL]);
 *             for (uint32_t k = 1; x4_decay_group(run, length[0], k, numbers, abundance); k++)
 *                 for (uint32_t i = 1; x4_decay_energy(run, length[0], k, i, place, energy); i++) .. energy ..
 *         }
 */

/* The run of a code, by subentry, pointer (blank for none) and the code's number, in the front of a slice of so many bytes
 * that does not overlap the entry; run[0] is how many bytes it has, and bytes behind it stay. A slice as long as the passage
 * is always long enough. Refusals, in this order:
 *
 *     31, 32, 33   as of x4_passage
 *     36           no passage under DECAY-DATA with this pointer, or no such code in it
 *     50           a character that no code can have there: x4_entry_record and x4_entry_column name it; where the passage
 *                  ended, the record is the next one and the column 0
 *     51           a break after no comma: record and column are those of the character before it
 *     52           the slice is shorter than the run
 *
 * x4_entry_refusal is 0 beside all but 31. */
uint64_t x4_decay(const uint8_t *entry, size_t length, uint32_t subentry, uint8_t pointer, uint32_t code, uint8_t *out,
                  size_t room, uint64_t run[1]);

/* The same of a passage in hand, whole records as x4_passage and x4_index_passage give them: nothing is judged, and the
 * records of 50 and 51 count in the passage from 1. Of any bytes, of which only whole records count. Refusals: 36, 50, 51,
 * 52. */
uint64_t x4_decay_in(const uint8_t *passage, size_t length, uint32_t code, uint8_t *out, size_t room, uint64_t run[1]);

/* The fields of a run before its groups. Their places are
 *
 *     places[X4_DECAY_FLAG]    the flag, with point  places[X4_DECAY_ISOMER]  G, M, M1 or M2, without its hyphen
 *     places[X4_DECAY_Z]       Z of the nuclide      places[X4_DECAY_HALF]    number of the half-life
 *     places[X4_DECAY_SYMBOL]  its symbol            places[X4_DECAY_UNIT]    its unit
 *     places[X4_DECAY_A]       its A                 places[X4_DECAY_GROUPS]  how many groups there are
 *
 * each but the last with its length behind it; both are 0 where the code has none. The half-life is a value as x4_value has
 * it, blank or a number; digits are not counted here. Of any bytes: 50 where they are no code, and then x4_decay_before says
 * how many characters stand before the first that no code has there; nothing is stored. */
uint64_t x4_decay_head(const uint8_t *run, size_t length, uint64_t places[15], uint64_t half[8]);

/* These three return 1 where there is such a group, type or energy, all counted from 1, and else 0; 0 where the bytes are no
 * code. They always store: zeros, which are a blank value, where there is none.
 *
 *     numbers[0] how many types      numbers[2] first character of the abundance
 *     numbers[1] how many energies   numbers[3] its length
 *
 * Abundance and energy are values as x4_value has them, digits not counted. Each call reads the run from its front. */
uint64_t x4_decay_group(const uint8_t *run, size_t length, uint32_t group, uint64_t numbers[4], uint64_t abundance[8]);
uint64_t x4_decay_type(const uint8_t *run, size_t length, uint32_t group, uint32_t type, uint64_t place[2]);
uint64_t x4_decay_energy(const uint8_t *run, size_t length, uint32_t group, uint32_t energy, uint64_t place[2],
                         uint64_t value[8]);

/* the places of a head; the length of each but the last stands behind it */
enum {
    X4_DECAY_FLAG = 0,
    X4_DECAY_Z = 2,
    X4_DECAY_SYMBOL = 4,
    X4_DECAY_A = 6,
    X4_DECAY_ISOMER = 8,
    X4_DECAY_HALF = 10,
    X4_DECAY_UNIT = 12,
    X4_DECAY_GROUPS = 14
};

/* ---- a held entry and a revision of it
 *
 * Of each subentry one is chosen: that of the only entry that has it, SUBENT or NOSUBENT, or, where both have it, that of the
 * revision unless its date, the eight digits of N2, is earlier. Both calls judge both entries. Refusals that they share, in this
 * order:
 *
 *     60  an entry is refused: x4_revision_which says which, X4_HELD or X4_REVISION, the held one where both are, and
 *         x4_entry_refusal, x4_entry_record and x4_entry_column are its refusal
 *     61  the accessions differ
 *
 *     uint64_t part[3];
 *     if (x4_subentry(held, n, revision, m, 2, part) == 0)
 *         fwrite((part[0] == X4_HELD ? held : revision) + part[1], 1, part[2], stdout);
 */

/* Subentry n, any number of 32 bits, as a part of the entry that holds it: part[0] X4_HELD or X4_REVISION, part[1] the first
 * byte there, counted from 0, part[2] the length, whole records from SUBENT to ENDSUBENT. Refusals: 60, 61, 32 neither entry has
 * it, 62 the one to hand out is NOSUBENT. A refused call stores nothing. */
uint64_t x4_subentry(const uint8_t *held, size_t held_length, const uint8_t *revision, size_t revision_length,
                     uint32_t subentry, uint64_t part[3]);

/* Writes the merge to the front of a buffer of so many bytes that overlaps neither entry, and its length to merged[0]: all
 * subentries as they are chosen, in number order, NOSUBENT too, between ENTRY and ENDENTRY of the revision with the later of both
 * ENTRY dates and the true count. Bytes behind it stay. Refusals: 60, 61, 37 the buffer is shorter than both entries together;
 * nothing is stored then. 63 the merge is refused, by another 001 or by more than 20,000 records: x4_entry_refusal,
 * x4_entry_record and x4_entry_column are its refusal, merged[0] is its length, and so many bytes of the buffer are blanks. */
uint64_t x4_merge(const uint8_t *held, size_t held_length, const uint8_t *revision, size_t revision_length, uint8_t *out,
                  size_t room, uint64_t merged[1]);

/* one of the two entries */
enum { X4_HELD = 1, X4_REVISION = 2 };

/* ---- the word that a call returns */

/* 0 where the call is answered */
static inline uint32_t x4_refusal(uint64_t word) { return (uint32_t)(word & 0xff); }

/* of a refused verdict and beside refusals 31, 60 and 63; column and record of a code beside 50 and 51; zeros with any other
 * refusal */
static inline uint32_t x4_entry_refusal(uint64_t word) { return (uint32_t)(word >> 8 & 0xff); }
static inline uint32_t x4_entry_column(uint64_t word) { return (uint32_t)(word >> 16 & 0xff); }
static inline uint32_t x4_entry_record(uint64_t word) { return (uint32_t)(word >> 24 & 0xffffff); }
static inline uint32_t x4_entry_ordinal(uint64_t word) { return (uint32_t)(word >> 48); }

/* of a refused call about lines, with 71 to 77 */
static inline uint32_t x4_cinda_column(uint64_t word) { return (uint32_t)(word >> 16 & 0xff); }
static inline uint32_t x4_cinda_at_line(uint64_t word) { return (uint32_t)(word >> 24 & 0xffffff); }

/* beside 60: X4_HELD or X4_REVISION; else 0 */
static inline uint32_t x4_revision_which(uint64_t word) { return (uint32_t)(word >> 48); }

/* of the word of x4_decay_head, where it is 50: so many characters, 2^40 - 1 at the most */
static inline uint64_t x4_decay_before(uint64_t word) { return word >> 24; }

/* of the words of x4_double, x4_index_double and x4_read_double alone: 0 blank or refused, 1 a double, 2 a decimal outside
 * the simple range; 0 to 10 digits */
static inline uint32_t x4_double_kind(uint64_t word) { return (uint32_t)(word >> 48 & 0xff); }
static inline uint32_t x4_double_digits(uint64_t word) { return (uint32_t)(word >> 56); }

/* ---- the lent array of a value */

static inline int x4_is_number(const uint64_t value[8]) { return value[0] == 1; }
static inline int x4_negative(const uint64_t value[8]) { return value[1] == 1; }
static inline uint64_t x4_coefficient(const uint64_t value[8]) { return value[2]; }

/* it lies between -100,000,000 and 99,999,999 */
static inline int32_t x4_power(const uint64_t value[8]) {
    return value[3] >> 63 ? -1 - (int32_t)~value[3] : (int32_t)value[3];
}

/* the count of digits written: 0 to 10 */
static inline uint32_t x4_digits(const uint64_t value[8]) { return (uint32_t)value[4]; }

#ifdef __cplusplus
}
#endif

#endif
