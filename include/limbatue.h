/* limbatue.h: race cards, fields and their prime forms. The verified library, version 0.10.0, for C99, C++11 and whatever calls C.
 *
 * Link liblimbatue.a. Where it is installed, `pkg-config --cflags --libs limbatue` prints the options; in the repository, tools/archive proves it and writes
 * target/lib/liblimbatue.a. It is for Linux on x86-64, for programs and shared libraries alike. docs/SHEET.md tells what the bytes of a sheet are.
 *
 * ARGUMENTS. Every function may be given any bytes and any numbers. Of a pointer it asks what C can not test: it is not null, even where its length is 0; it is
 * aligned for its type; as many elements as its length says may be read (and written, where it is not const); what is written overlaps no other argument.
 *
 * WHAT IS RETURNED. 0 where the call was done, else the number of the refusal plus 256 times its place: LIMBATUE_NUMBER and LIMBATUE_PLACE take them apart.
 * A refused call leaves every buffer, the session and the answer array as they were. A call that was done writes what it names; elements past that keep their
 * values.
 *
 * THREADS. Any number of threads may call at once, each with buffers and a session of its own; a sheet, which is only read, may be shared. There is no global
 * state, nothing is allocated, and nothing is called but memcpy and memset: every call is reentrant. Every call ends by itself. Of the stack it takes what is told
 * below.
 *
 * REACHED KINDS. A kind is reached where some field of the sheet holds it, or a line of a reached kind leaves it; every other kind is out. Norms, rows, stages,
 * the rounds of Compare and shelf numbers go by the reached kinds alone, in the finer sense too. The row of a kind that is out is all 0, its mark is 0, and its
 * count in every prime form and shelf field is 0. The walk goes by the lines as they stand.
 *
 * REFUSALS. The checks run in this order, and the first that applies is returned; 7 and 8 line by line; 9 and 10 of reached kinds, 9 for all before 10 for any.
 * P is the place.
 * An answer array counts as a buffer, and so does a session.
 *
 *   number  place  sentence
 *   16      0      the desk is over 7
 *   1       0      the sheet has under 20 bytes
 *   2       0      the number of kinds is not from 1 to 32
 *   3       0      the number of codes is not from 1 to 64
 *   4       0      there are over 256 lines
 *   5       0      there are over 64 fields
 *   6       0      the offset of the lines is not 20
 *   6       1      the offset of the fields is not where the lines end
 *   6       2      the total is not where the fields end
 *   6       3      the bytes given are not as many as the total
 *   7       line   line P: its kind is not under the number of kinds
 *   8       line   line P: its code is not under the number of codes
 *   9       kind   kind P: it has no norm, since it can not be cleared
 *   10      kind   kind P: its norm is over 1,000,000,000
 *   11      0      the first field or kind number is too large
 *   11      1      the second field number is too large
 *   13      0      the round limit is over 8
 *   14      0      the field or the size is over 16 tokens
 *   15      0      no field of this size has so large a number
 *   17      1      the squad is empty
 *   18      0      there are over 65,536 fields of this size
 *   12      0      a buffer or table is too short
 */
#ifndef LIMBATUE_H
#define LIMBATUE_H

#include <stddef.h>
#include <stdint.h>

#ifdef __cplusplus
extern "C" {
#endif

/* The version: 10000 x major + 100 x minor + patch. */
#define LIMBATUE_VERSION 1000
#define LIMBATUE_VERSION_TEXT "0.10.0"

/* Of what a call returned. */
#define LIMBATUE_NUMBER(returned) ((returned) & 255u)
#define LIMBATUE_PLACE(returned) ((returned) >> 8)

/* The numbers of the table above. */
enum {
    LIMBATUE_DONE = 0,
    LIMBATUE_REFUSED_NO_HEADER = 1,
    LIMBATUE_REFUSED_KINDS = 2,
    LIMBATUE_REFUSED_CODES = 3,
    LIMBATUE_REFUSED_LINES = 4,
    LIMBATUE_REFUSED_FIELDS = 5,
    LIMBATUE_REFUSED_LAYOUT = 6,
    LIMBATUE_REFUSED_LINE_KIND = 7,
    LIMBATUE_REFUSED_LINE_CODE = 8,
    LIMBATUE_REFUSED_NO_NORM = 9,
    LIMBATUE_REFUSED_NORM_OVER_LIMIT = 10,
    LIMBATUE_REFUSED_NUMBER = 11,
    LIMBATUE_REFUSED_TOO_SHORT = 12,
    LIMBATUE_REFUSED_ROUND_LIMIT = 13,
    LIMBATUE_REFUSED_SIZE = 14,
    LIMBATUE_REFUSED_SHELF_NUMBER = 15,
    LIMBATUE_REFUSED_DESK = 16,
    LIMBATUE_REFUSED_EMPTY_SQUAD = 17,
    LIMBATUE_REFUSED_ENTRY = 18
};

/* answer[0] of Compare and of finer Compare; answer[0] of Walk. */
enum { LIMBATUE_SAME = 0, LIMBATUE_DIFFERENT = 1 };
enum { LIMBATUE_TOGETHER = 0, LIMBATUE_APART = 1, LIMBATUE_SPENT = 2 };

/* Bytes of the longest sheet. Who reads a sheet from a stream reads one byte more, so that a longer one is refused and not cut. */
#define LIMBATUE_SHEET_MOST 12820

/* Elements that any sheet's table, any field's counts or any sheet's marks, and the counts of Frequencies have at most; bytes that no page passes. */
#define LIMBATUE_TABLE_MOST 1024
#define LIMBATUE_COUNTS_MOST 32
#define LIMBATUE_FREQUENCIES_MOST 34
#define LIMBATUE_PAGE_MOST 74183

/* Tokens of the largest fields that have shelf numbers. */
#define LIMBATUE_TOKENS_MOST 16

/* Desks of a session, numbered from 0: the elements of a session array that are theirs; a shorter array is refused. */
#define LIMBATUE_DESKS 8

/* Elements that each call writes to its answer array; a shorter array is refused. */
#define LIMBATUE_NUMBERS_ANSWER 4
#define LIMBATUE_SETTLE_ANSWER 1
#define LIMBATUE_SETTLE_SINCE_ANSWER 1
#define LIMBATUE_ROW_CHECK_ANSWER 2
#define LIMBATUE_COMPARE_ANSWER 3
#define LIMBATUE_WALK_ANSWER 3
#define LIMBATUE_PAGE_ANSWER 1
#define LIMBATUE_SHELF_NUMBER_ANSWER 2
#define LIMBATUE_SQUADS_ANSWER 1
#define LIMBATUE_FINER_COMPARE_ANSWER 3

/* Bytes of stack that must be left where a call is made. Taken are, as measured: settle 119,064, settle with the marks 119,112, compare and finer compare 136,360,
 * prime form and finer prime form 119,096, walk 76,688 at most, page 210,744, shelf number 6,368, shelf field 9,976, squads 120,088, frequencies 130,312, the
 * others under 256. Stated is each with 4,096 more, for memcpy, memset and the loader, which may be asked for them at a first call, and rounded up to pages of 4,096.
 * In the repository ./stack measures the archive again, and fails where under 4,096 are left. */
#define LIMBATUE_VERSION_STACK 8192
#define LIMBATUE_NUMBERS_STACK 8192
#define LIMBATUE_SETTLE_STACK 139264
#define LIMBATUE_SETTLE_SINCE_STACK 139264
#define LIMBATUE_ROW_CHECK_STACK 8192
#define LIMBATUE_COMPARE_STACK 147456
#define LIMBATUE_PRIME_FORM_STACK 135168
#define LIMBATUE_WALK_STACK 86016
#define LIMBATUE_PAGE_STACK 221184
#define LIMBATUE_SHELF_NUMBER_STACK 12288
#define LIMBATUE_SHELF_FIELD_STACK 16384
#define LIMBATUE_SQUADS_STACK 135168
#define LIMBATUE_FINER_COMPARE_STACK 147456
#define LIMBATUE_FINER_PRIME_FORM_STACK 135168
#define LIMBATUE_FREQUENCIES_STACK 155648
#define LIMBATUE_STACK_MOST LIMBATUE_PAGE_STACK

/* The version of the library that was linked; LIMBATUE_VERSION is that of this header. */
uint32_t limbatue_version(void);

/* Numbers. Reads the sheet. Writes nothing but the answer.
 * answer[0]: the kinds, n; answer[1]: the codes; answer[2]: the lines; answer[3]: the fields. Refuses 1 to 8, and 12. */
uint32_t limbatue_numbers(const uint8_t *sheet, size_t sheet_length, uint64_t *answer, size_t answer_length);

/* Settle. Reads the sheet. Writes the final base to the table: n x n counts, row by row in kind number; a prime kind's row is itself once, and that of a kind that
 * is out is all 0.
 * answer[0]: the settled stage. Refuses 1 to 10, and 12. */
uint32_t limbatue_settle(const uint8_t *sheet, size_t sheet_length, uint32_t *table, size_t table_length, uint64_t *answer, size_t answer_length);

/* Settle with the marks. Reads the sheet. Writes the table that Settle writes, and to `since` n marks, in kind number: for each kind the first stage, from 1 up, at
 * which its row became the one that is settled. From that stage on its row is this one at every stage; the mark of a prime kind tells since when it is prime. A mark is
 * at most the settled stage, and 0 for a kind that is out.
 * answer[0]: the settled stage. Refuses 1 to 10, and 12. */
uint32_t limbatue_settle_since(const uint8_t *sheet, size_t sheet_length, uint32_t *table, size_t table_length, uint32_t *since, size_t since_length, uint64_t *answer, size_t answer_length);

/* Row's check. Reads the table's length alone, and judges no table. Writes nothing but the answer.
 * answer[0]: where the row of the kind starts in the table; answer[1]: its entries. Refuses 2, 11 and 12. */
uint32_t limbatue_row_check(const uint32_t *table, size_t table_length, size_t kinds, size_t kind, uint64_t *answer, size_t answer_length);

/* Compare. Reads the sheet; the fields are named by number, from 0. Writes nothing but the answer.
 * answer[0]: LIMBATUE_SAME or LIMBATUE_DIFFERENT; answer[1]: the stage; answer[2]: the rounds (0 and 0 where the fields are the same). Refuses 1 to 12. */
uint32_t limbatue_compare(const uint8_t *sheet, size_t sheet_length, size_t first, size_t second, uint64_t *answer, size_t answer_length);

/* Prime form. Reads the sheet. Writes n counts. It has no answer array. Refuses 1 to 12. */
uint32_t limbatue_prime_form(const uint8_t *sheet, size_t sheet_length, size_t field, uint64_t *counts, size_t counts_length);

/* Walk, by a desk 0 to 7, with a limit of 0 to 8 rounds. The session is a lent array of what each desk has left of its allowance, element d for desk d. It opens
 * when the caller fills the array; each walk goes on from what the last one left. Reads the sheet and the session's first eight elements. Writes what the desk has
 * left, session[desk] less the pairs drawn; what the other desks have left neither counts nor changes.
 * answer[0]: LIMBATUE_TOGETHER, LIMBATUE_APART or LIMBATUE_SPENT; answer[1]: the rounds that parted the pair (0 unless apart); answer[2]: the pairs drawn.
 * Refuses 16, before it looks at the sheet, then 1 to 8, 11, 13 and 12. */
uint32_t limbatue_walk(const uint8_t *sheet, size_t sheet_length, size_t first, size_t second, uint64_t limit, size_t desk,
                       uint32_t *session, size_t session_length, uint64_t *answer, size_t answer_length);

/* The page. Reads the sheet's first 12,821 bytes. Writes the page's bytes, with no 0 byte after them. A sheet that is refused has a page too,
 * "refused NUMBER PLACE" and a newline.
 * answer[0]: the length of the page. Refuses 12 alone. */
uint32_t limbatue_page(const uint8_t *sheet, size_t sheet_length, uint8_t *page, size_t page_length, uint64_t *answer, size_t answer_length);

/* Shelf number. The size of a field is its tokens in all; the fields of a size, of reached kinds, are listed with the smaller count of the last of these first,
 * then of the one before it, and so on, from number 0. Reads the sheet. Writes nothing but the answer.
 * answer[0]: the size of the field; answer[1]: its number among the fields of that size. Refuses 1 to 12, and 14. */
uint32_t limbatue_shelf_number(const uint8_t *sheet, size_t sheet_length, size_t field, uint64_t *answer, size_t answer_length);

/* Shelf field: of the fields of a size the one of that number, whether or not the sheet has it. Reads the sheet. Writes n counts. It has no answer array.
 * Refuses 1 to 10, 12, 14 and 15. */
uint32_t limbatue_shelf_field(const uint8_t *sheet, size_t sheet_length, size_t size, uint64_t number, uint16_t *counts, size_t counts_length);

/* Squads: how often a field, the squad, goes into another, the whole. The two may be one field. Reads the sheet. Writes n counts, the prime form of the remainder:
 * q times the prime form of the squad and it are the prime form of the whole.
 * answer[0]: q, the largest number such that the whole is the same as q squads joined with some remainder. Refuses 1 to 12, and 17. */
uint32_t limbatue_squads(const uint8_t *sheet, size_t sheet_length, size_t whole, size_t squad, uint64_t *remainder, size_t remainder_length, uint64_t *answer, size_t answer_length);

/* Finer Compare. The total of a field is its tokens in all. Two fields are finer same where some relation holds between them, and of two fields that it relates the
 * totals are equal, and each read of either has a read of the same code of the other that leaves fields which it relates again: so they are the same for Compare too.
 * Stage 0 relates fields of equal norm and equal total; in the game a challenger also wins as soon as the totals differ, at the start included. Reads the sheet; the
 * fields are named by number, from 0. Writes nothing but the answer.
 * answer[0]: LIMBATUE_SAME or LIMBATUE_DIFFERENT; answer[1]: the stage; answer[2]: the rounds (0 and 0 where the fields are finer same). Refuses 1 to 12. */
uint32_t limbatue_finer_compare(const uint8_t *sheet, size_t sheet_length, size_t first, size_t second, uint64_t *answer, size_t answer_length);

/* Finer prime form. A kind is prime in the finer sense where one token of it is finer same as no field of earlier kinds; in the place of any other token stands the
 * one token of an earlier prime kind that it is finer same as. Two fields are finer same just when their finer prime forms are equal, and a form has the total of its
 * field. Reads the sheet. Writes n counts. It has no answer array. Refuses 1 to 12. */
uint32_t limbatue_finer_prime_form(const uint8_t *sheet, size_t sheet_length, size_t field, uint64_t *counts, size_t counts_length);

/* Frequencies: how common each answer of Compare is, of a field and all fields of a size, which are those that Shelf field finds. The given field may have any number
 * of tokens. Reads the sheet. Writes n + 2 counts: counts[0], how many of these fields are the same as the given one; counts[1 + s], how many part from it at stage s,
 * for s from 0 to n. They add up to the number of fields of that size, at most 65,536. It has no answer array. Refuses 1 to 12, 14 where the size is over 16, and 18. */
uint32_t limbatue_frequencies(const uint8_t *sheet, size_t sheet_length, size_t field, size_t size, uint32_t *counts, size_t counts_length);

#ifdef __cplusplus
}
#endif

#endif
