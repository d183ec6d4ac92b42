/* calls: the header against the library. Every name and constant of limbatue.h is used in calls whose outcomes are known; prints nothing and exits 0 where all agree, else says the line that does not. C99 and C++11. */
#include <stdio.h>
#include <string.h>

#include "limbatue.h"

static int failures = 0;
#define EXPECT(condition) ((condition) ? (void)0 : (void)(failures++, fprintf(stderr, "tests/calls.c:%d: not so: %s\n", __LINE__, #condition)))
#define REFUSED(returned, number, place) (LIMBATUE_NUMBER(returned) == (number) && LIMBATUE_PLACE(returned) == (place))

static uint8_t sheet[LIMBATUE_SHEET_MOST + 1], page[LIMBATUE_PAGE_MOST];
static uint32_t table[LIMBATUE_TABLE_MOST + 1], since[LIMBATUE_COUNTS_MOST + 1], session[LIMBATUE_DESKS + 1];
static uint64_t counts[LIMBATUE_COUNTS_MOST], answer[4];
static uint16_t shelved[LIMBATUE_COUNTS_MOST + 1];
static uint32_t common[LIMBATUE_FREQUENCIES_MOST + 1];
static size_t length;

static void put(size_t at, size_t bytes, size_t value)
{
    for (; bytes > 0; bytes--, at++, value /= 256)
        sheet[at] = (uint8_t)(value % 256);
}

/* A sheet with these numbers. Each line is of a kind in turn, reads code 0 and leaves nothing; each field is empty. */
static void make_sheet(size_t kinds, size_t codes, size_t lines, size_t fields)
{
    size_t i, start = 20 + lines * (2 + kinds);
    length = start + fields * 2 * kinds;
    memset(sheet, 0, sizeof sheet);
    put(0, 2, kinds);
    put(2, 2, codes);
    put(4, 2, lines);
    put(6, 2, fields);
    put(8, 4, 20);
    put(12, 4, start);
    put(16, 4, length);
    for (i = 0; i < lines; i++)
        sheet[20 + i * (2 + kinds)] = (uint8_t)(i % kinds);
}

static void put_count(size_t field, size_t kind, size_t count)
{
    size_t kinds = sheet[0], lines = sheet[4] + 256u * sheet[5];
    put(20 + lines * (2 + kinds) + 2 * (field * kinds + kind), 2, count);
}

static uint32_t numbers(void) { return limbatue_numbers(sheet, length, answer, LIMBATUE_NUMBERS_ANSWER); }
static uint32_t settle(void) { return limbatue_settle(sheet, length, table, LIMBATUE_TABLE_MOST, answer, LIMBATUE_SETTLE_ANSWER); }
static uint32_t settle_since(void) { return limbatue_settle_since(sheet, length, table, LIMBATUE_TABLE_MOST, since, LIMBATUE_COUNTS_MOST, answer, LIMBATUE_SETTLE_SINCE_ANSWER); }
static uint32_t compare(size_t first, size_t second) { return limbatue_compare(sheet, length, first, second, answer, LIMBATUE_COMPARE_ANSWER); }
static uint32_t walk(size_t first, size_t second, size_t desk) { return limbatue_walk(sheet, length, first, second, 8, desk, session, LIMBATUE_DESKS, answer, LIMBATUE_WALK_ANSWER); }
static uint32_t shelf_number(size_t field) { return limbatue_shelf_number(sheet, length, field, answer, LIMBATUE_SHELF_NUMBER_ANSWER); }
static uint32_t shelf_field(size_t size, uint64_t number) { return limbatue_shelf_field(sheet, length, size, number, shelved, LIMBATUE_COUNTS_MOST); }
static uint32_t finer(size_t first, size_t second) { return limbatue_finer_compare(sheet, length, first, second, answer, LIMBATUE_FINER_COMPARE_ANSWER); }
static uint32_t finer_form(size_t field) { return limbatue_finer_prime_form(sheet, length, field, counts, LIMBATUE_COUNTS_MOST); }
static uint32_t frequencies(size_t field, size_t size) { return limbatue_frequencies(sheet, length, field, size, common, LIMBATUE_FREQUENCIES_MOST); }
static uint32_t squads(size_t whole, size_t squad) { return limbatue_squads(sheet, length, whole, squad, counts, LIMBATUE_COUNTS_MOST, answer, LIMBATUE_SQUADS_ANSWER); }

/* The numbers of a sheet, or the refusal of a small one of which one part was changed. */
static int has_numbers(size_t kinds, size_t codes, size_t lines, size_t fields)
{
    make_sheet(kinds, codes, lines, fields);
    return numbers() == LIMBATUE_DONE && answer[0] == kinds && answer[1] == codes && answer[2] == lines && answer[3] == fields;
}

static uint32_t damaged(size_t at, size_t bytes, size_t value)
{
    make_sheet(3, 2, 5, 4);
    put(at, bytes, value);
    return numbers();
}

static void test_version(void)
{
    char text[32];
    EXPECT(limbatue_version() == LIMBATUE_VERSION);
    sprintf(text, "%d.%d.%d", LIMBATUE_VERSION / 10000, LIMBATUE_VERSION / 100 % 100, LIMBATUE_VERSION % 100);
    EXPECT(strcmp(text, LIMBATUE_VERSION_TEXT) == 0);
}

static void test_numbers(void)
{
    EXPECT(has_numbers(3, 2, 5, 4));
    EXPECT(has_numbers(1, 1, 0, 0));
    EXPECT(has_numbers(32, 64, 256, 64));
    EXPECT(length == LIMBATUE_SHEET_MOST);
    make_sheet(3, 2, 5, 4);
    memset(answer, 7, sizeof answer);
    EXPECT(REFUSED(limbatue_numbers(sheet, length, answer, LIMBATUE_NUMBERS_ANSWER - 1), LIMBATUE_REFUSED_TOO_SHORT, 0));
    EXPECT(REFUSED(limbatue_numbers(sheet, 19, answer, 0), LIMBATUE_REFUSED_NO_HEADER, 0));
    EXPECT(answer[0] == answer[3] && answer[0] % 256 == 7);
}

/* Kind 2 has no line, and field 1 holds it; field 0 is empty. */
static void make_no_norm(void)
{
    make_sheet(3, 2, 2, 2);
    put_count(1, 2, 1);
}

static void test_refused_sheets(void)
{
    make_sheet(3, 2, 5, 4);
    length = 19;
    EXPECT(REFUSED(numbers(), LIMBATUE_REFUSED_NO_HEADER, 0));
    EXPECT(REFUSED(damaged(0, 2, 33), LIMBATUE_REFUSED_KINDS, 0));
    EXPECT(REFUSED(damaged(2, 2, 0), LIMBATUE_REFUSED_CODES, 0));
    EXPECT(REFUSED(damaged(4, 2, 257), LIMBATUE_REFUSED_LINES, 0));
    EXPECT(REFUSED(damaged(6, 2, 65), LIMBATUE_REFUSED_FIELDS, 0));
    EXPECT(REFUSED(damaged(8, 4, 21), LIMBATUE_REFUSED_LAYOUT, 0));
    EXPECT(REFUSED(damaged(12, 4, 0), LIMBATUE_REFUSED_LAYOUT, 1));
    EXPECT(REFUSED(damaged(16, 4, 0), LIMBATUE_REFUSED_LAYOUT, 2));
    EXPECT(REFUSED(damaged(20 + 4 * 5, 1, 3), LIMBATUE_REFUSED_LINE_KIND, 4));
    EXPECT(REFUSED(damaged(20 + 1 * 5 + 1, 1, 2), LIMBATUE_REFUSED_LINE_CODE, 1));
    make_sheet(3, 2, 5, 4);
    length++;
    EXPECT(REFUSED(numbers(), LIMBATUE_REFUSED_LAYOUT, 3));
    make_no_norm();
    EXPECT(REFUSED(settle(), LIMBATUE_REFUSED_NO_NORM, 2));
    make_sheet(5, 1, 5, 1); /* 1 leaves 200 of 0, 2 leaves 200 of 1, 3 leaves 200 of 2, 4 leaves 200 of 3; the field holds 4 */
    sheet[20 + 1 * 7 + 2] = sheet[20 + 2 * 7 + 3] = sheet[20 + 3 * 7 + 4] = sheet[20 + 4 * 7 + 5] = 200;
    put_count(0, 4, 1);
    EXPECT(REFUSED(settle(), LIMBATUE_REFUSED_NORM_OVER_LIMIT, 4));
}

/* Kinds of one line each, so that each is of norm 1 and prime only where it is kind 0; fields 0 and 1 are alike, field 2 is one token larger, field 3 holds one token of each kind. */
static void make_fields(void)
{
    size_t kind;
    make_sheet(32, 1, 32, 4);
    put_count(0, 0, 1);
    put_count(1, 1, 1);
    put_count(2, 0, 2);
    for (kind = 0; kind < 32; kind++)
        put_count(3, kind, 1);
}

static void test_filer(void)
{
    make_fields();
    EXPECT(settle() == LIMBATUE_DONE && answer[0] == 1 && table[0] == 1 && table[31 * 32] == 1 && table[31 * 32 + 31] == 0);
    EXPECT(REFUSED(limbatue_settle(sheet, length, table, LIMBATUE_TABLE_MOST - 1, answer, LIMBATUE_SETTLE_ANSWER), LIMBATUE_REFUSED_TOO_SHORT, 0));
    EXPECT(REFUSED(limbatue_settle(sheet, length, table, LIMBATUE_TABLE_MOST, answer, LIMBATUE_SETTLE_ANSWER - 1), LIMBATUE_REFUSED_TOO_SHORT, 0));
    EXPECT(limbatue_row_check(table, LIMBATUE_TABLE_MOST, 32, 31, answer, LIMBATUE_ROW_CHECK_ANSWER) == LIMBATUE_DONE && answer[0] == 31 * 32 && answer[1] == 32);
    EXPECT(REFUSED(limbatue_row_check(table, LIMBATUE_TABLE_MOST, 32, 31, answer, LIMBATUE_ROW_CHECK_ANSWER - 1), LIMBATUE_REFUSED_TOO_SHORT, 0));
    EXPECT(REFUSED(limbatue_row_check(table, LIMBATUE_TABLE_MOST, 33, 0, answer, LIMBATUE_ROW_CHECK_ANSWER), LIMBATUE_REFUSED_KINDS, 0));
    EXPECT(REFUSED(limbatue_row_check(table, LIMBATUE_TABLE_MOST, 32, 32, answer, LIMBATUE_ROW_CHECK_ANSWER), LIMBATUE_REFUSED_NUMBER, 0));
    EXPECT(compare(0, 1) == LIMBATUE_DONE && answer[0] == LIMBATUE_SAME && answer[1] == 0 && answer[2] == 0);
    EXPECT(compare(0, 2) == LIMBATUE_DONE && answer[0] == LIMBATUE_DIFFERENT && answer[1] == 0 && answer[2] == 2);
    EXPECT(REFUSED(compare(4, 4), LIMBATUE_REFUSED_NUMBER, 0));
    EXPECT(REFUSED(compare(2, 4), LIMBATUE_REFUSED_NUMBER, 1));
    EXPECT(REFUSED(limbatue_compare(sheet, length, 0, 1, answer, LIMBATUE_COMPARE_ANSWER - 1), LIMBATUE_REFUSED_TOO_SHORT, 0));
    EXPECT(limbatue_prime_form(sheet, length, 2, counts, LIMBATUE_COUNTS_MOST) == LIMBATUE_DONE && counts[0] == 2 && counts[31] == 0);
    EXPECT(REFUSED(limbatue_prime_form(sheet, length, 2, counts, LIMBATUE_COUNTS_MOST - 1), LIMBATUE_REFUSED_TOO_SHORT, 0));
}

/* Opens the session: one desk is given an allowance, every other desk another. The element past the desks is nobody's. */
static void open_session(size_t desk, uint32_t allowance, uint32_t others)
{
    size_t i;
    for (i = 0; i < LIMBATUE_DESKS; i++)
        session[i] = i == desk ? allowance : others;
    session[LIMBATUE_DESKS] = 7;
}

/* Whether one desk has so many left, every other desk so many, and the element past the desks is as it was. */
static int has_left(size_t desk, uint32_t left, uint32_t others)
{
    size_t i;
    for (i = 0; i < LIMBATUE_DESKS; i++)
        if (session[i] != (i == desk ? left : others))
            return 0;
    return session[LIMBATUE_DESKS] == 7;
}

static int answered(uint64_t found, uint64_t rounds, uint64_t drawn) { return answer[0] == found && answer[1] == rounds && answer[2] == drawn; }

/* Fields 0 and 1 are together after 8 rounds and 24 pairs; fields 0 and 2 are apart after 2 rounds and 5 pairs. */
static void test_walk(void)
{
    size_t desk;
    make_fields();
    for (desk = 0; desk < LIMBATUE_DESKS; desk++) {
        open_session(desk, 30, UINT32_MAX);
        EXPECT(walk(0, 1, desk) == LIMBATUE_DONE && answered(LIMBATUE_TOGETHER, 0, 24) && has_left(desk, 6, UINT32_MAX));
        EXPECT(walk(0, 2, desk) == LIMBATUE_DONE && answered(LIMBATUE_APART, 2, 5) && has_left(desk, 1, UINT32_MAX));
        EXPECT(walk(0, 2, desk) == LIMBATUE_DONE && answered(LIMBATUE_SPENT, 0, 1) && has_left(desk, 0, UINT32_MAX));
        open_session(desk, 24, 0);
        EXPECT(walk(0, 1, desk) == LIMBATUE_DONE && answered(LIMBATUE_TOGETHER, 0, 24) && has_left(desk, 0, 0));
    }
    open_session(5, 100, 100);
    EXPECT(walk(0, 1, 5) == LIMBATUE_DONE && has_left(5, 76, 100));
    memset(answer, 7, sizeof answer); /* with one element more of each array */
    EXPECT(limbatue_walk(sheet, length, 0, 2, 8, 5, session, LIMBATUE_DESKS + 1, answer, LIMBATUE_WALK_ANSWER + 1) == LIMBATUE_DONE && answered(LIMBATUE_APART, 2, 5) && answer[3] % 256 == 7 && has_left(5, 71, 100));
}

/* Two desks in turn: desk 2 is spent by its second walk, and desk 5 is not. */
static void test_two_desks(void)
{
    make_fields();
    open_session(2, 30, 60);
    EXPECT(walk(0, 1, 2) == LIMBATUE_DONE && answered(LIMBATUE_TOGETHER, 0, 24) && has_left(2, 6, 60));
    EXPECT(walk(0, 1, 5) == LIMBATUE_DONE && answered(LIMBATUE_TOGETHER, 0, 24) && session[2] == 6 && session[5] == 36);
    EXPECT(walk(0, 1, 2) == LIMBATUE_DONE && answered(LIMBATUE_SPENT, 0, 6) && session[2] == 0 && session[5] == 36);
    EXPECT(walk(0, 1, 5) == LIMBATUE_DONE && answered(LIMBATUE_TOGETHER, 0, 24) && session[2] == 0 && session[5] == 12);
    EXPECT(walk(0, 1, 2) == LIMBATUE_DONE && answered(LIMBATUE_SPENT, 0, 0) && session[2] == 0 && session[5] == 12);
    EXPECT(walk(0, 2, 5) == LIMBATUE_DONE && answered(LIMBATUE_APART, 2, 5) && session[2] == 0 && session[5] == 7);
    session[2] = session[5] = 60; /* the other six have what they had */
    EXPECT(has_left(2, 60, 60));
}

/* Each refusal before the next, with all that the later ones refuse given too; nothing changes. */
static void test_refused_walks(void)
{
    const size_t short_session = LIMBATUE_DESKS - 1, over[] = { LIMBATUE_DESKS, LIMBATUE_DESKS + 1, 256, 261, (size_t)UINT64_C(4294967296), SIZE_MAX };
    size_t i;
    make_fields();
    open_session(5, 100, 50);
    memset(answer, 7, sizeof answer);
    for (i = 0; i < sizeof over / sizeof over[0]; i++) {
        EXPECT(REFUSED(limbatue_walk(sheet, 0, 4, 4, 9, over[i], session, short_session, answer, 0), LIMBATUE_REFUSED_DESK, 0));
        EXPECT(REFUSED(walk(0, 1, over[i]), LIMBATUE_REFUSED_DESK, 0));
    }
    EXPECT(REFUSED(limbatue_walk(sheet, 0, 4, 4, 9, 7, session, short_session, answer, 0), LIMBATUE_REFUSED_NO_HEADER, 0));
    EXPECT(REFUSED(limbatue_walk(sheet, length, 4, 4, 9, 7, session, short_session, answer, 0), LIMBATUE_REFUSED_NUMBER, 0));
    EXPECT(REFUSED(limbatue_walk(sheet, length, 0, 4, 9, 7, session, short_session, answer, 0), LIMBATUE_REFUSED_NUMBER, 1));
    EXPECT(REFUSED(limbatue_walk(sheet, length, 0, 1, 9, 7, session, short_session, answer, 0), LIMBATUE_REFUSED_ROUND_LIMIT, 0));
    EXPECT(REFUSED(limbatue_walk(sheet, length, 0, 1, 8, 7, session, short_session, answer, LIMBATUE_WALK_ANSWER), LIMBATUE_REFUSED_TOO_SHORT, 0));
    EXPECT(REFUSED(limbatue_walk(sheet, length, 0, 1, 8, 5, session, short_session, answer, LIMBATUE_WALK_ANSWER), LIMBATUE_REFUSED_TOO_SHORT, 0));
    EXPECT(REFUSED(limbatue_walk(sheet, length, 0, 1, 8, 0, session, 0, answer, LIMBATUE_WALK_ANSWER), LIMBATUE_REFUSED_TOO_SHORT, 0));
    EXPECT(REFUSED(limbatue_walk(sheet, length, 0, 1, 8, 5, session, LIMBATUE_DESKS, answer, LIMBATUE_WALK_ANSWER - 1), LIMBATUE_REFUSED_TOO_SHORT, 0));
    /* with room for everything */
    EXPECT(REFUSED(limbatue_walk(sheet, 0, 0, 1, 8, 5, session, LIMBATUE_DESKS, answer, LIMBATUE_WALK_ANSWER), LIMBATUE_REFUSED_NO_HEADER, 0));
    EXPECT(REFUSED(walk(4, 1, 5), LIMBATUE_REFUSED_NUMBER, 0) && REFUSED(walk(0, 4, 5), LIMBATUE_REFUSED_NUMBER, 1));
    EXPECT(REFUSED(limbatue_walk(sheet, length, 0, 1, 9, 5, session, LIMBATUE_DESKS, answer, LIMBATUE_WALK_ANSWER), LIMBATUE_REFUSED_ROUND_LIMIT, 0));
    EXPECT(has_left(5, 100, 50) && answered(answer[3], answer[3], answer[3]) && answer[3] % 256 == 7);
}

static void test_page(void)
{
    make_fields();
    EXPECT(limbatue_page(sheet, length, page, LIMBATUE_PAGE_MOST, answer, LIMBATUE_PAGE_ANSWER) == LIMBATUE_DONE && memcmp(page, "kinds 32 stages 1\n", 18) == 0 && page[answer[0] - 1] == '\n');
    EXPECT(REFUSED(limbatue_page(sheet, length, page, (size_t)answer[0] - 1, answer, LIMBATUE_PAGE_ANSWER), LIMBATUE_REFUSED_TOO_SHORT, 0));
    EXPECT(REFUSED(limbatue_page(sheet, length, page, LIMBATUE_PAGE_MOST, answer, LIMBATUE_PAGE_ANSWER - 1), LIMBATUE_REFUSED_TOO_SHORT, 0));
    EXPECT(limbatue_page(sheet, 0, page, LIMBATUE_PAGE_MOST, answer, LIMBATUE_PAGE_ANSWER) == LIMBATUE_DONE && answer[0] == 12 && memcmp(page, "refused 1 0\n", 12) == 0);
}

/* With 32 kinds there are 1,503,232,609,098 fields of 16 tokens. The last of them has all tokens of kind 31. */
static void test_shelf_number(void)
{
    make_fields();
    EXPECT(shelf_number(0) == LIMBATUE_DONE && answer[0] == 1 && answer[1] == 0);
    EXPECT(shelf_number(1) == LIMBATUE_DONE && answer[0] == 1 && answer[1] == 1);
    EXPECT(shelf_number(2) == LIMBATUE_DONE && answer[0] == 2 && answer[1] == 0);
    EXPECT(REFUSED(shelf_number(4), LIMBATUE_REFUSED_NUMBER, 0));
    memset(answer, 7, sizeof answer);
    EXPECT(REFUSED(limbatue_shelf_number(sheet, length, 1, answer, LIMBATUE_SHELF_NUMBER_ANSWER - 1), LIMBATUE_REFUSED_TOO_SHORT, 0));
    EXPECT(answer[0] == answer[3] && answer[1] == answer[3]);
    EXPECT(limbatue_shelf_number(sheet, length, 1, answer, LIMBATUE_SHELF_NUMBER_ANSWER + 1) == LIMBATUE_DONE && answer[0] == 1 && answer[1] == 1 && answer[2] == answer[3]);
    put_count(0, 0, 0);
    EXPECT(shelf_number(0) == LIMBATUE_DONE && answer[0] == 0 && answer[1] == 0);
    put_count(0, 31, LIMBATUE_TOKENS_MOST);
    EXPECT(shelf_number(0) == LIMBATUE_DONE && answer[0] == LIMBATUE_TOKENS_MOST && answer[1] == UINT64_C(1503232609097));
    put_count(0, 0, 1);
    memset(answer, 7, sizeof answer);
    EXPECT(REFUSED(shelf_number(0), LIMBATUE_REFUSED_SIZE, 0));
    EXPECT(REFUSED(limbatue_shelf_number(sheet, length, 0, answer, 0), LIMBATUE_REFUSED_SIZE, 0));
    EXPECT(answer[0] == answer[3] && answer[1] == answer[3]);
    put_count(0, 0, 65535); /* with the 16 of kind 31, over what 16 bits hold */
    EXPECT(REFUSED(shelf_number(0), LIMBATUE_REFUSED_SIZE, 0));
    make_no_norm();
    EXPECT(REFUSED(shelf_number(0), LIMBATUE_REFUSED_NO_NORM, 2) && REFUSED(shelf_number(2), LIMBATUE_REFUSED_NO_NORM, 2));
}

static void test_shelf_field(void)
{
    const uint16_t kept = 7 * 256 + 7;
    make_fields();
    memset(shelved, 7, sizeof shelved);
    EXPECT(REFUSED(shelf_field(LIMBATUE_TOKENS_MOST + 1, 0), LIMBATUE_REFUSED_SIZE, 0));
    EXPECT(REFUSED(shelf_field(256, 0), LIMBATUE_REFUSED_SIZE, 0));
    EXPECT(REFUSED(shelf_field((size_t)UINT64_C(4294967296), 0), LIMBATUE_REFUSED_SIZE, 0));
    EXPECT(REFUSED(shelf_field(SIZE_MAX, 0), LIMBATUE_REFUSED_SIZE, 0));
    EXPECT(REFUSED(shelf_field(LIMBATUE_TOKENS_MOST, UINT64_C(1503232609098)), LIMBATUE_REFUSED_SHELF_NUMBER, 0));
    EXPECT(REFUSED(shelf_field(0, 1), LIMBATUE_REFUSED_SHELF_NUMBER, 0));
    EXPECT(REFUSED(shelf_field(0, UINT64_MAX), LIMBATUE_REFUSED_SHELF_NUMBER, 0));
    EXPECT(REFUSED(limbatue_shelf_field(sheet, length, LIMBATUE_TOKENS_MOST + 1, UINT64_MAX, shelved, 0), LIMBATUE_REFUSED_SIZE, 0));
    EXPECT(REFUSED(limbatue_shelf_field(sheet, length, LIMBATUE_TOKENS_MOST, UINT64_MAX, shelved, 0), LIMBATUE_REFUSED_SHELF_NUMBER, 0));
    EXPECT(REFUSED(limbatue_shelf_field(sheet, length, LIMBATUE_TOKENS_MOST, 0, shelved, LIMBATUE_COUNTS_MOST - 1), LIMBATUE_REFUSED_TOO_SHORT, 0));
    EXPECT(shelved[0] == kept && shelved[30] == kept && shelved[31] == kept);
    EXPECT(shelf_field(LIMBATUE_TOKENS_MOST, UINT64_C(1503232609097)) == LIMBATUE_DONE && shelved[0] == 0 && shelved[30] == 0 && shelved[31] == 16 && shelved[32] == kept);
    EXPECT(shelf_field(LIMBATUE_TOKENS_MOST, 1) == LIMBATUE_DONE && shelved[0] == 15 && shelved[1] == 1 && shelved[31] == 0 && shelved[32] == kept);
    EXPECT(shelf_field(0, 0) == LIMBATUE_DONE && shelved[0] == 0 && shelved[1] == 0 && shelved[32] == kept);
    make_sheet(2, 1, 2, 1); /* of 2 tokens: 2 0, then 1 1, then 0 2 */
    put_count(0, 0, 1);
    put_count(0, 1, 1);
    memset(shelved, 7, sizeof shelved);
    EXPECT(shelf_field(2, 1) == LIMBATUE_DONE && shelved[0] == 1 && shelved[1] == 1 && shelved[2] == kept && shelved[31] == kept);
    EXPECT(limbatue_shelf_field(sheet, length, 2, 2, shelved, 2) == LIMBATUE_DONE && shelved[0] == 0 && shelved[1] == 2 && shelved[2] == kept);
    EXPECT(REFUSED(shelf_field(2, 3), LIMBATUE_REFUSED_SHELF_NUMBER, 0));
    make_no_norm();
    EXPECT(REFUSED(shelf_field(LIMBATUE_TOKENS_MOST + 1, 0), LIMBATUE_REFUSED_NO_NORM, 2));
}

/* Two prime kinds, 0 and 1; kind 2 is the same as one of each. Field 0 is 5 7 3, of the prime form 8 10 0; field 1 is 0 1 1, of the form 1 2 0; field 2 is 0 2 0;
 * field 3 is empty. */
static void make_squads(void)
{
    make_sheet(3, 2, 4, 4);
    put(20 + 1 * 5 + 1, 1, 1); /* kind 1 reads code 1 */
    put(20 + 2 * 5 + 3, 1, 1); /* kind 2 reads code 0 and leaves one of kind 1 */
    put(20 + 3 * 5, 3, 2 + 256 * 1 + 65536 * 1); /* kind 2 reads code 1 and leaves one of kind 0 */
    put_count(0, 0, 5);
    put_count(0, 1, 7);
    put_count(0, 2, 3);
    put_count(1, 1, 1);
    put_count(1, 2, 1);
    put_count(2, 1, 2);
}

/* Whether the first three counts are these, and the one past them is as it was filled. */
static int remains(uint64_t first, uint64_t second, uint64_t third) { return counts[0] == first && counts[1] == second && counts[2] == third && counts[3] == UINT64_MAX; }

static void test_squads(void)
{
    const uint64_t norm = 16646656; /* of kind 3, below */
    make_squads();
    memset(counts, 255, sizeof counts);
    memset(answer, 7, sizeof answer);
    EXPECT(squads(0, 1) == LIMBATUE_DONE && answer[0] == 5 && remains(3, 0, 0));
    EXPECT(squads(0, 2) == LIMBATUE_DONE && answer[0] == 5 && remains(8, 0, 0));
    EXPECT(squads(0, 0) == LIMBATUE_DONE && answer[0] == 1 && remains(0, 0, 0));
    EXPECT(squads(1, 0) == LIMBATUE_DONE && answer[0] == 0 && remains(1, 2, 0));
    EXPECT(squads(1, 2) == LIMBATUE_DONE && answer[0] == 1 && remains(1, 0, 0));
    EXPECT(squads(2, 1) == LIMBATUE_DONE && answer[0] == 0 && remains(0, 2, 0));
    EXPECT(squads(3, 1) == LIMBATUE_DONE && answer[0] == 0 && remains(0, 0, 0)); /* a whole that is empty */
    EXPECT(counts[LIMBATUE_COUNTS_MOST - 1] == UINT64_MAX && answer[1] == answer[3] && answer[2] == answer[3] && answer[3] % 256 == 7);
    /* with room for the three counts alone, and with one element more of the answer array */
    EXPECT(limbatue_squads(sheet, length, 0, 1, counts, 3, answer, LIMBATUE_SQUADS_ANSWER + 1) == LIMBATUE_DONE && answer[0] == 5 && answer[1] == answer[3] && remains(3, 0, 0));
    make_fields(); /* every kind is the same as kind 0 */
    EXPECT(squads(2, 1) == LIMBATUE_DONE && answer[0] == 2 && counts[0] == 0 && counts[31] == 0);
    EXPECT(squads(0, 2) == LIMBATUE_DONE && answer[0] == 0 && counts[0] == 1 && counts[1] == 0);
    put_count(2, 31, 65535);
    put_count(1, 0, 2);
    EXPECT(squads(2, 1) == LIMBATUE_DONE && answer[0] == 21845 && counts[0] == 2 && counts[31] == 0);
    make_sheet(4, 1, 4, 3); /* 1 leaves 255 of 0, 2 leaves 255 of 1, 3 leaves 255 of 2: each is the same as so many of 0 as its norm says */
    sheet[20 + 1 * 6 + 2] = sheet[20 + 2 * 6 + 3] = sheet[20 + 3 * 6 + 4] = 255;
    put_count(0, 3, 65535);
    put_count(1, 0, 1);
    put_count(2, 3, 65535);
    put_count(2, 0, 1);
    EXPECT(squads(0, 1) == LIMBATUE_DONE && answer[0] == 65535 * norm && counts[0] == 0 && counts[3] == 0);
    EXPECT(squads(0, 2) == LIMBATUE_DONE && answer[0] == 0 && counts[0] == 65535 * norm && counts[3] == 0);
}

/* Each refusal before the next, with all that the later ones refuse given too; nothing changes. */
static void test_refused_squads(void)
{
    size_t i;
    make_squads();
    memset(counts, 255, sizeof counts);
    memset(answer, 7, sizeof answer);
    EXPECT(REFUSED(limbatue_squads(sheet, 0, 4, 4, counts, 2, answer, 0), LIMBATUE_REFUSED_NO_HEADER, 0));
    EXPECT(REFUSED(limbatue_squads(sheet, length - 1, 4, 4, counts, 2, answer, 0), LIMBATUE_REFUSED_LAYOUT, 3));
    EXPECT(REFUSED(limbatue_squads(sheet, length, 4, 4, counts, 2, answer, 0), LIMBATUE_REFUSED_NUMBER, 0));
    EXPECT(REFUSED(limbatue_squads(sheet, length, SIZE_MAX, 3, counts, 2, answer, 0), LIMBATUE_REFUSED_NUMBER, 0));
    EXPECT(REFUSED(limbatue_squads(sheet, length, 0, 4, counts, 2, answer, 0), LIMBATUE_REFUSED_NUMBER, 1));
    EXPECT(REFUSED(limbatue_squads(sheet, length, 3, (size_t)UINT64_C(4294967296), counts, 2, answer, 0), LIMBATUE_REFUSED_NUMBER, 1));
    EXPECT(REFUSED(limbatue_squads(sheet, length, 0, 3, counts, 2, answer, 0), LIMBATUE_REFUSED_EMPTY_SQUAD, 1));
    EXPECT(REFUSED(limbatue_squads(sheet, length, 3, 3, counts, 0, answer, 0), LIMBATUE_REFUSED_EMPTY_SQUAD, 1));
    EXPECT(REFUSED(limbatue_squads(sheet, length, 0, 1, counts, 2, answer, LIMBATUE_SQUADS_ANSWER), LIMBATUE_REFUSED_TOO_SHORT, 0));
    EXPECT(REFUSED(limbatue_squads(sheet, length, 3, 1, counts, 0, answer, LIMBATUE_SQUADS_ANSWER), LIMBATUE_REFUSED_TOO_SHORT, 0));
    EXPECT(REFUSED(limbatue_squads(sheet, length, 0, 1, counts, 3, answer, LIMBATUE_SQUADS_ANSWER - 1), LIMBATUE_REFUSED_TOO_SHORT, 0));
    EXPECT(REFUSED(limbatue_squads(sheet, length, 0, 1, counts, 2, answer, LIMBATUE_SQUADS_ANSWER - 1), LIMBATUE_REFUSED_TOO_SHORT, 0));
    /* with room for everything */
    EXPECT(REFUSED(squads(4, 1), LIMBATUE_REFUSED_NUMBER, 0) && REFUSED(squads(0, 4), LIMBATUE_REFUSED_NUMBER, 1));
    EXPECT(REFUSED(squads(0, 3), LIMBATUE_REFUSED_EMPTY_SQUAD, 1) && REFUSED(squads(3, 3), LIMBATUE_REFUSED_EMPTY_SQUAD, 1));
    make_no_norm();
    EXPECT(REFUSED(squads(0, 0), LIMBATUE_REFUSED_NO_NORM, 2) && REFUSED(squads(2, 2), LIMBATUE_REFUSED_NO_NORM, 2));
    make_sheet(3, 2, 3, 0); /* no field */
    EXPECT(REFUSED(squads(0, 0), LIMBATUE_REFUSED_NUMBER, 0));
    for (i = 0; i < LIMBATUE_COUNTS_MOST; i++)
        EXPECT(counts[i] == UINT64_MAX);
    EXPECT(answered(answer[3], answer[3], answer[3]) && answer[3] % 256 == 7);
}

/* One code, so that fields of equal norm are the same. Kinds 0 and 1 leave nothing; 2 leaves one of 0, 3 leaves one of 1, 4 leaves one of 2. In the finer sense 1 is one of 0, 3 is one of 2, and the others are
 * prime. Field 0 is one of 2, field 1 two of 0, field 2 one of 3, field 3 one of 4 and one of 0, field 4 one of 2 and one of 3; field 5 is empty. */
static void make_finer(void)
{
    make_sheet(5, 1, 5, 6);
    sheet[20 + 2 * 7 + 2 + 0] = sheet[20 + 3 * 7 + 2 + 1] = sheet[20 + 4 * 7 + 2 + 2] = 1;
    put_count(0, 2, 1);
    put_count(1, 0, 2);
    put_count(2, 3, 1);
    put_count(3, 0, 1);
    put_count(3, 4, 1);
    put_count(4, 2, 1);
    put_count(4, 3, 1);
}

/* Whether the first five counts have these of kinds 0, 2 and 4 and none of 1 and 3, and the one past them is as it was filled. */
static int has_form(uint64_t of_0, uint64_t of_2, uint64_t of_4)
{
    return counts[0] == of_0 && counts[1] == 0 && counts[2] == of_2 && counts[3] == 0 && counts[4] == of_4 && counts[5] == UINT64_MAX;
}

static void test_finer(void)
{
    size_t kind;
    make_finer();
    memset(counts, 255, sizeof counts);
    memset(answer, 7, sizeof answer);
    EXPECT(compare(0, 1) == LIMBATUE_DONE && answered(LIMBATUE_SAME, 0, 0));
    EXPECT(finer(0, 1) == LIMBATUE_DONE && answered(LIMBATUE_DIFFERENT, 0, 3)); /* one token and two */
    EXPECT(finer(0, 2) == LIMBATUE_DONE && answered(LIMBATUE_SAME, 0, 0));
    EXPECT(compare(3, 4) == LIMBATUE_DONE && answered(LIMBATUE_SAME, 0, 0));
    EXPECT(finer(3, 4) == LIMBATUE_DONE && answered(LIMBATUE_DIFFERENT, 1, 5)); /* two tokens each, and field 3 alone comes to one of norm 3 */
    EXPECT(finer(3, 3) == LIMBATUE_DONE && answered(LIMBATUE_SAME, 0, 0));
    EXPECT(finer(5, 0) == LIMBATUE_DONE && answered(LIMBATUE_DIFFERENT, 0, 1));
    EXPECT(finer(5, 5) == LIMBATUE_DONE && answered(LIMBATUE_SAME, 0, 0));
    EXPECT(answer[3] % 256 == 7 && counts[0] == UINT64_MAX);
    EXPECT(finer_form(0) == LIMBATUE_DONE && has_form(0, 1, 0));
    EXPECT(finer_form(1) == LIMBATUE_DONE && has_form(2, 0, 0));
    EXPECT(finer_form(2) == LIMBATUE_DONE && has_form(0, 1, 0));
    EXPECT(finer_form(3) == LIMBATUE_DONE && has_form(1, 0, 1));
    EXPECT(finer_form(4) == LIMBATUE_DONE && has_form(0, 2, 0));
    EXPECT(finer_form(5) == LIMBATUE_DONE && has_form(0, 0, 0));
    EXPECT(counts[LIMBATUE_COUNTS_MOST - 1] == UINT64_MAX);
    /* with room for the five counts alone, and with one element more of the answer array */
    EXPECT(limbatue_finer_prime_form(sheet, length, 4, counts, 5) == LIMBATUE_DONE && has_form(0, 2, 0));
    EXPECT(limbatue_finer_compare(sheet, length, 3, 4, answer, LIMBATUE_FINER_COMPARE_ANSWER + 1) == LIMBATUE_DONE && answered(LIMBATUE_DIFFERENT, 1, 5) && answer[3] % 256 == 7);
    make_fields(); /* every kind is one of kind 0 */
    EXPECT(finer(0, 1) == LIMBATUE_DONE && answered(LIMBATUE_SAME, 0, 0));
    EXPECT(finer(0, 2) == LIMBATUE_DONE && answered(LIMBATUE_DIFFERENT, 0, 2));
    for (kind = 0; kind < 32; kind++)
        put_count(3, kind, 65535);
    EXPECT(finer_form(3) == LIMBATUE_DONE && counts[0] == 32 * 65535 && counts[1] == 0 && counts[31] == 0);
    put_count(1, 1, 65535); /* with one of kind 2, 65,536 tokens; field 2 has none */
    put_count(1, 2, 1);
    put_count(2, 0, 0);
    EXPECT(finer(1, 2) == LIMBATUE_DONE && answered(LIMBATUE_DIFFERENT, 0, 1));
}

/* Each refusal before the next, with all that the later ones refuse given too; nothing changes. */
static void test_refused_finer(void)
{
    size_t i;
    make_finer();
    memset(counts, 255, sizeof counts);
    memset(answer, 7, sizeof answer);
    EXPECT(REFUSED(limbatue_finer_compare(sheet, 0, 6, 6, answer, 0), LIMBATUE_REFUSED_NO_HEADER, 0));
    EXPECT(REFUSED(limbatue_finer_compare(sheet, length - 1, 6, 6, answer, 0), LIMBATUE_REFUSED_LAYOUT, 3));
    EXPECT(REFUSED(limbatue_finer_compare(sheet, length, 6, 6, answer, 0), LIMBATUE_REFUSED_NUMBER, 0));
    EXPECT(REFUSED(limbatue_finer_compare(sheet, length, SIZE_MAX, 0, answer, 0), LIMBATUE_REFUSED_NUMBER, 0));
    EXPECT(REFUSED(limbatue_finer_compare(sheet, length, 0, 6, answer, 0), LIMBATUE_REFUSED_NUMBER, 1));
    EXPECT(REFUSED(limbatue_finer_compare(sheet, length, 0, (size_t)UINT64_C(4294967296), answer, 0), LIMBATUE_REFUSED_NUMBER, 1));
    EXPECT(REFUSED(limbatue_finer_compare(sheet, length, 0, 1, answer, LIMBATUE_FINER_COMPARE_ANSWER - 1), LIMBATUE_REFUSED_TOO_SHORT, 0));
    EXPECT(REFUSED(limbatue_finer_compare(sheet, length, 0, 2, answer, 0), LIMBATUE_REFUSED_TOO_SHORT, 0));
    EXPECT(REFUSED(limbatue_finer_prime_form(sheet, 0, 6, counts, 4), LIMBATUE_REFUSED_NO_HEADER, 0));
    EXPECT(REFUSED(limbatue_finer_prime_form(sheet, length - 1, 6, counts, 4), LIMBATUE_REFUSED_LAYOUT, 3));
    EXPECT(REFUSED(limbatue_finer_prime_form(sheet, length, 6, counts, 4), LIMBATUE_REFUSED_NUMBER, 0));
    EXPECT(REFUSED(limbatue_finer_prime_form(sheet, length, SIZE_MAX, counts, 0), LIMBATUE_REFUSED_NUMBER, 0));
    EXPECT(REFUSED(limbatue_finer_prime_form(sheet, length, 4, counts, 4), LIMBATUE_REFUSED_TOO_SHORT, 0));
    EXPECT(REFUSED(limbatue_finer_prime_form(sheet, length, 5, counts, 0), LIMBATUE_REFUSED_TOO_SHORT, 0));
    /* with room for everything */
    EXPECT(REFUSED(finer(6, 0), LIMBATUE_REFUSED_NUMBER, 0) && REFUSED(finer(0, 6), LIMBATUE_REFUSED_NUMBER, 1) && REFUSED(finer_form(6), LIMBATUE_REFUSED_NUMBER, 0));
    make_no_norm();
    EXPECT(REFUSED(finer(0, 0), LIMBATUE_REFUSED_NO_NORM, 2) && REFUSED(finer(2, 2), LIMBATUE_REFUSED_NO_NORM, 2));
    EXPECT(REFUSED(finer_form(0), LIMBATUE_REFUSED_NO_NORM, 2) && REFUSED(finer_form(2), LIMBATUE_REFUSED_NO_NORM, 2));
    make_sheet(3, 2, 3, 0); /* no field */
    EXPECT(REFUSED(finer(0, 0), LIMBATUE_REFUSED_NUMBER, 0) && REFUSED(finer_form(0), LIMBATUE_REFUSED_NUMBER, 0));
    for (i = 0; i < LIMBATUE_COUNTS_MOST; i++)
        EXPECT(counts[i] == UINT64_MAX);
    EXPECT(answered(answer[3], answer[3], answer[3]) && answer[3] % 256 == 7);
}

/* A chain of so many kinds: each reads code 0 and leaves nothing; each but kind 0 also reads code 1 and leaves one of the kind before it. All have norm 1, and kind k parts from each later kind at stage k + 2. Field 0
 * is one token of the last kind, field 1 is empty, field 2 has 65,535 tokens of each kind. */
static void make_chain(size_t kinds)
{
    size_t kind, at;
    make_sheet(kinds, 2, 2 * kinds - 1, 3);
    for (kind = 1; kind < kinds; kind++) {
        at = 20 + (kinds - 1 + kind) * (2 + kinds);
        sheet[at] = (uint8_t)kind;
        sheet[at + 1] = 1;
        sheet[at + 2 + kind - 1] = 1;
    }
    put_count(0, kinds - 1, 1);
    for (kind = 0; kind < kinds; kind++)
        put_count(2, kind, 65535);
}

/* Whether so many are the same, so many part at stages 0 and 1, none at the later ones of so many kinds, and the count past these is as it was filled. */
static int are_common(size_t kinds, uint32_t same, uint32_t at_stage_0, uint32_t at_stage_1)
{
    size_t i;
    for (i = 3; i < kinds + 2; i++)
        if (common[i] != 0)
            return 0;
    return common[0] == same && common[1] == at_stage_0 && common[2] == at_stage_1 && common[kinds + 2] == UINT32_MAX;
}

static void test_frequencies(void)
{
    size_t stage;
    make_squads();
    memset(common, 255, sizeof common);
    EXPECT(frequencies(2, 2) == LIMBATUE_DONE && are_common(3, 1, 3, 2)); /* 0 2 0 itself; 1 0 1, 0 1 1 and 0 0 2 have other norms; 2 0 0 and 1 1 0 part at stage 1 */
    EXPECT(frequencies(2, 1) == LIMBATUE_DONE && are_common(3, 0, 2, 1));
    EXPECT(frequencies(1, 2) == LIMBATUE_DONE && are_common(3, 1, 4, 1));
    EXPECT(frequencies(1, 3) == LIMBATUE_DONE && are_common(3, 1, 6, 3)); /* 1 2 0 is the same as 0 1 1 */
    EXPECT(frequencies(0, 3) == LIMBATUE_DONE && are_common(3, 0, 10, 0)); /* the given field has 15 tokens */
    EXPECT(frequencies(3, 0) == LIMBATUE_DONE && are_common(3, 1, 0, 0)); /* one empty field is listed, and the given one is empty */
    EXPECT(frequencies(3, 1) == LIMBATUE_DONE && are_common(3, 0, 3, 0));
    EXPECT(frequencies(0, LIMBATUE_TOKENS_MOST) == LIMBATUE_DONE && are_common(3, 1, 138, 14)); /* 15 of the 153 have two of kind 2, and so the norm 18; of them 6 8 2 is the same */
    EXPECT(common[LIMBATUE_FREQUENCIES_MOST] == UINT32_MAX);
    /* with room for the five counts alone */
    memset(common, 255, sizeof common);
    EXPECT(limbatue_frequencies(sheet, length, 1, 3, common, 5) == LIMBATUE_DONE && are_common(3, 1, 6, 3));
    make_chain(32);
    memset(common, 255, sizeof common);
    EXPECT(frequencies(0, 1) == LIMBATUE_DONE && common[0] == 1 && common[1] == 0 && common[2] == 0 && common[34] == UINT32_MAX);
    for (stage = 2; stage <= 32; stage++)
        EXPECT(common[1 + stage] == 1);
    EXPECT(frequencies(0, 2) == LIMBATUE_DONE && are_common(32, 0, 528, 0));
    EXPECT(frequencies(1, 4) == LIMBATUE_DONE && are_common(32, 0, 52360, 0));
    EXPECT(frequencies(2, 0) == LIMBATUE_DONE && are_common(32, 0, 1, 0)); /* the given field has 32 times 65,535 tokens */
    put_count(0, 31, 4); /* a field parts from four of kind 31 by the lowest kind that it holds */
    EXPECT(frequencies(0, 4) == LIMBATUE_DONE && common[0] == 1 && common[1] == 0 && common[2] == 0 && common[34] == UINT32_MAX);
    for (stage = 2; stage <= 32; stage++)
        EXPECT(common[1 + stage] == (36 - stage) * (35 - stage) * (34 - stage) / 6);
    make_fields(); /* every kind is one of kind 0 */
    EXPECT(frequencies(1, 1) == LIMBATUE_DONE && are_common(32, 32, 0, 0));
    EXPECT(frequencies(1, 2) == LIMBATUE_DONE && are_common(32, 0, 528, 0));
    EXPECT(frequencies(2, 2) == LIMBATUE_DONE && are_common(32, 528, 0, 0));
    put_count(2, 0, 4);
    EXPECT(frequencies(2, 4) == LIMBATUE_DONE && are_common(32, 52360, 0, 0));
    make_sheet(7, 1, 7, 2);
    for (stage = 0; stage < 7; stage++)
        put_count(0, stage, 1);
    put_count(1, 0, 15);
    memset(common, 255, sizeof common);
    EXPECT(frequencies(0, 7) == LIMBATUE_DONE && are_common(7, 1716, 0, 0));
    EXPECT(frequencies(1, 15) == LIMBATUE_DONE && are_common(7, 54264, 0, 0)); /* no sheet has more fields of a size that is listed */
    EXPECT(REFUSED(frequencies(1, 16), LIMBATUE_REFUSED_ENTRY, 0)); /* 74,613 */
    EXPECT(are_common(7, 54264, 0, 0));
}

/* Each refusal before the next, with all that the later ones refuse given too; nothing changes. */
static void test_refused_frequencies(void)
{
    const size_t short_counts = LIMBATUE_FREQUENCIES_MOST - 1;
    size_t i, kinds, size;
    uint64_t entry;
    make_chain(32);
    memset(common, 255, sizeof common);
    EXPECT(REFUSED(limbatue_frequencies(sheet, 0, 3, 17, common, short_counts), LIMBATUE_REFUSED_NO_HEADER, 0));
    EXPECT(REFUSED(limbatue_frequencies(sheet, length - 1, 3, 17, common, short_counts), LIMBATUE_REFUSED_LAYOUT, 3));
    EXPECT(REFUSED(limbatue_frequencies(sheet, length, 3, 17, common, short_counts), LIMBATUE_REFUSED_NUMBER, 0));
    EXPECT(REFUSED(limbatue_frequencies(sheet, length, 3, 5, common, short_counts), LIMBATUE_REFUSED_NUMBER, 0));
    EXPECT(REFUSED(limbatue_frequencies(sheet, length, SIZE_MAX, SIZE_MAX, common, 0), LIMBATUE_REFUSED_NUMBER, 0));
    EXPECT(REFUSED(limbatue_frequencies(sheet, length, (size_t)UINT64_C(4294967296), 1, common, 0), LIMBATUE_REFUSED_NUMBER, 0));
    EXPECT(REFUSED(limbatue_frequencies(sheet, length, 0, LIMBATUE_TOKENS_MOST + 1, common, short_counts), LIMBATUE_REFUSED_SIZE, 0));
    EXPECT(REFUSED(limbatue_frequencies(sheet, length, 2, 256, common, 0), LIMBATUE_REFUSED_SIZE, 0));
    EXPECT(REFUSED(limbatue_frequencies(sheet, length, 2, (size_t)UINT64_C(4294967296), common, 0), LIMBATUE_REFUSED_SIZE, 0));
    EXPECT(REFUSED(limbatue_frequencies(sheet, length, 2, SIZE_MAX, common, 0), LIMBATUE_REFUSED_SIZE, 0));
    EXPECT(REFUSED(limbatue_frequencies(sheet, length, 0, LIMBATUE_TOKENS_MOST, common, short_counts), LIMBATUE_REFUSED_ENTRY, 0));
    EXPECT(REFUSED(limbatue_frequencies(sheet, length, 0, 5, common, short_counts), LIMBATUE_REFUSED_ENTRY, 0)); /* 376,992 */
    EXPECT(REFUSED(limbatue_frequencies(sheet, length, 0, 5, common, 0), LIMBATUE_REFUSED_ENTRY, 0));
    EXPECT(REFUSED(limbatue_frequencies(sheet, length, 0, 4, common, short_counts), LIMBATUE_REFUSED_TOO_SHORT, 0));
    EXPECT(REFUSED(limbatue_frequencies(sheet, length, 0, 4, common, LIMBATUE_COUNTS_MOST), LIMBATUE_REFUSED_TOO_SHORT, 0));
    EXPECT(REFUSED(limbatue_frequencies(sheet, length, 1, 0, common, 0), LIMBATUE_REFUSED_TOO_SHORT, 0));
    /* with room for everything */
    EXPECT(REFUSED(frequencies(3, 1), LIMBATUE_REFUSED_NUMBER, 0) && REFUSED(frequencies(0, 17), LIMBATUE_REFUSED_SIZE, 0));
    EXPECT(REFUSED(frequencies(0, 5), LIMBATUE_REFUSED_ENTRY, 0) && REFUSED(frequencies(2, 16), LIMBATUE_REFUSED_ENTRY, 0));
    make_no_norm();
    EXPECT(REFUSED(frequencies(0, 0), LIMBATUE_REFUSED_NO_NORM, 2) && REFUSED(frequencies(2, 17), LIMBATUE_REFUSED_NO_NORM, 2));
    make_sheet(3, 2, 3, 0); /* no field */
    EXPECT(REFUSED(frequencies(0, 0), LIMBATUE_REFUSED_NUMBER, 0));
    for (kinds = 1; kinds <= 32; kinds++) { /* of every number of kinds and every size; the least entry that is refused is 65,780, for 22 kinds and 5 tokens */
        make_chain(kinds);
        for (size = 0, entry = 1; size <= LIMBATUE_TOKENS_MOST + 1; entry = entry * (kinds + size) / (size + 1), size++)
            EXPECT(REFUSED(limbatue_frequencies(sheet, length, 0, size, common, 0), size > LIMBATUE_TOKENS_MOST ? LIMBATUE_REFUSED_SIZE : entry > 65536 ? LIMBATUE_REFUSED_ENTRY : LIMBATUE_REFUSED_TOO_SHORT, 0));
    }
    for (i = 0; i < LIMBATUE_FREQUENCIES_MOST + 1; i++)
        EXPECT(common[i] == UINT32_MAX);
}

/* In a chain of kinds all of norm 1 each kind is the same as the one before it up to the stage of its number, and prime from the next stage on. A kind that is the same as one of them, or as a field of several, has its row since the
 * last of these is prime. The table, the stage and what is past them are those of Settle. */
static void test_since(void)
{
    size_t kinds, kind, at;
    for (kinds = 1; kinds <= 32; kinds++) {
        make_chain(kinds);
        memset(table, 255, sizeof table);
        memset(since, 255, sizeof since);
        EXPECT(settle_since() == LIMBATUE_DONE && answer[0] == kinds);
        for (kind = 0; kind < kinds; kind++) {
            EXPECT(since[kind] == kind + 1);
            for (at = 0; at < kinds; at++)
                EXPECT(table[kind * kinds + at] == (at == kind));
        }
        EXPECT(since[kinds] == UINT32_MAX && table[kinds * kinds] == UINT32_MAX);
    }
    make_fields(); /* every kind is one of kind 0 */
    EXPECT(settle_since() == LIMBATUE_DONE && answer[0] == 1);
    for (kind = 0; kind < 32; kind++)
        EXPECT(since[kind] == 1 && table[kind * 32] == 1);
    make_chain(5); /* kind 3 does what kind 2 does, and is one of kind 2 since that is prime, at stage 3; kind 4, which leaves kind 3, is told from both at stage 4 */
    at = 20 + (4 + 3) * 7;
    EXPECT(sheet[at] == 3 && sheet[at + 1] == 1 && sheet[at + 2 + 2] == 1);
    sheet[at + 2 + 2] = 0;
    sheet[at + 2 + 1] = 1;
    memset(since, 255, sizeof since);
    EXPECT(settle_since() == LIMBATUE_DONE && answer[0] == 4);
    EXPECT(since[0] == 1 && since[1] == 2 && since[2] == 3 && since[3] == 3 && since[4] == 4 && since[5] == UINT32_MAX);
    EXPECT(table[3 * 5 + 2] == 1 && table[3 * 5 + 3] == 0 && table[4 * 5 + 4] == 1);
    /* with room for just what is written, and with one element more of the answer array */
    memset(table, 255, sizeof table);
    memset(since, 255, sizeof since);
    memset(answer, 7, sizeof answer);
    EXPECT(limbatue_settle_since(sheet, length, table, 25, since, 5, answer, LIMBATUE_SETTLE_SINCE_ANSWER + 1) == LIMBATUE_DONE && answer[0] == 4 && answer[1] % 256 == 7);
    EXPECT(since[4] == 4 && since[5] == UINT32_MAX && table[24] == 1 && table[25] == UINT32_MAX);
}

/* Each refusal before the next, with all that the later ones refuse given too; nothing changes. */
static void test_refused_since(void)
{
    size_t i;
    make_chain(32);
    memset(table, 255, sizeof table);
    memset(since, 255, sizeof since);
    memset(answer, 7, sizeof answer);
    EXPECT(REFUSED(limbatue_settle_since(sheet, 0, table, 0, since, 0, answer, 0), LIMBATUE_REFUSED_NO_HEADER, 0));
    EXPECT(REFUSED(limbatue_settle_since(sheet, length - 1, table, 0, since, 0, answer, 0), LIMBATUE_REFUSED_LAYOUT, 3));
    EXPECT(REFUSED(limbatue_settle_since(sheet, length, table, LIMBATUE_TABLE_MOST - 1, since, LIMBATUE_COUNTS_MOST, answer, LIMBATUE_SETTLE_SINCE_ANSWER), LIMBATUE_REFUSED_TOO_SHORT, 0));
    EXPECT(REFUSED(limbatue_settle_since(sheet, length, table, LIMBATUE_TABLE_MOST, since, LIMBATUE_COUNTS_MOST - 1, answer, LIMBATUE_SETTLE_SINCE_ANSWER), LIMBATUE_REFUSED_TOO_SHORT, 0));
    EXPECT(REFUSED(limbatue_settle_since(sheet, length, table, LIMBATUE_TABLE_MOST, since, LIMBATUE_COUNTS_MOST, answer, LIMBATUE_SETTLE_SINCE_ANSWER - 1), LIMBATUE_REFUSED_TOO_SHORT, 0));
    EXPECT(REFUSED(limbatue_settle_since(sheet, length, table, 0, since, 0, answer, 0), LIMBATUE_REFUSED_TOO_SHORT, 0));
    make_no_norm();
    EXPECT(REFUSED(limbatue_settle_since(sheet, length, table, 0, since, 0, answer, 0), LIMBATUE_REFUSED_NO_NORM, 2) && REFUSED(settle_since(), LIMBATUE_REFUSED_NO_NORM, 2));
    for (i = 0; i < LIMBATUE_TABLE_MOST + 1; i++)
        EXPECT(table[i] == UINT32_MAX);
    for (i = 0; i < LIMBATUE_COUNTS_MOST + 1; i++)
        EXPECT(since[i] == UINT32_MAX);
    EXPECT(answered(answer[3], answer[3], answer[3]) && answer[3] % 256 == 7);
}

/* Kind 1 is held, and kinds 0 and 2, the latter without a line, are out; then all three are. */
static void test_out(void)
{
    const char *kinds = "kinds 3 stages 1\nkind 0 out\nkind 1 norm 1 since 1 prime\nkind 2 out\nfield 0 = 0 0 0\nfield 1 = 0 2 0\npair 0 1 different 0 1\n", *none = "kinds 3 stages 1\nkind 0 out\nkind 1 out\nkind 2 out\nfield 0 = 0 0 0\nfield 1 = 0 0 0\npair 0 1 same\n";
    size_t i;
    make_sheet(3, 2, 2, 2);
    put_count(1, 1, 2);
    memset(table, 255, sizeof table);
    EXPECT(settle() == LIMBATUE_DONE && answer[0] == 1 && table[9] == UINT32_MAX);
    for (i = 0; i < 9; i++)
        EXPECT(table[i] == (i == 4));
    memset(since, 255, sizeof since);
    EXPECT(settle_since() == LIMBATUE_DONE && answer[0] == 1 && since[0] == 0 && since[1] == 1 && since[2] == 0 && since[3] == UINT32_MAX);
    for (i = 0; i < 9; i++)
        EXPECT(table[i] == (i == 4));
    EXPECT(limbatue_prime_form(sheet, length, 1, counts, 3) == LIMBATUE_DONE && counts[0] == 0 && counts[1] == 2 && counts[2] == 0);
    EXPECT(shelf_number(1) == LIMBATUE_DONE && answer[0] == 2 && answer[1] == 0);
    EXPECT(shelf_field(3, 0) == LIMBATUE_DONE && shelved[0] == 0 && shelved[1] == 3 && shelved[2] == 0);
    EXPECT(REFUSED(shelf_field(3, 1), LIMBATUE_REFUSED_SHELF_NUMBER, 0));
    EXPECT(REFUSED(limbatue_shelf_field(sheet, length, 3, 0, shelved, 2), LIMBATUE_REFUSED_TOO_SHORT, 0));
    EXPECT(squads(1, 1) == LIMBATUE_DONE && answer[0] == 1 && counts[0] == 0 && counts[1] == 0 && counts[2] == 0);
    EXPECT(finer_form(1) == LIMBATUE_DONE && counts[0] == 0 && counts[1] == 2 && counts[2] == 0);
    EXPECT(finer(1, 0) == LIMBATUE_DONE && answered(LIMBATUE_DIFFERENT, 0, 1));
    memset(common, 255, sizeof common);
    EXPECT(frequencies(1, 2) == LIMBATUE_DONE && are_common(3, 1, 0, 0)); /* of each size one field is listed */
    EXPECT(frequencies(0, LIMBATUE_TOKENS_MOST) == LIMBATUE_DONE && are_common(3, 0, 1, 0));
    EXPECT(REFUSED(limbatue_frequencies(sheet, length, 1, 2, common, 4), LIMBATUE_REFUSED_TOO_SHORT, 0));
    EXPECT(limbatue_page(sheet, length, page, LIMBATUE_PAGE_MOST, answer, LIMBATUE_PAGE_ANSWER) == LIMBATUE_DONE && answer[0] == strlen(kinds) && memcmp(page, kinds, strlen(kinds)) == 0);
    put_count(1, 1, 0);
    memset(table, 255, sizeof table);
    EXPECT(settle() == LIMBATUE_DONE && answer[0] == 1 && table[9] == UINT32_MAX);
    for (i = 0; i < 9; i++)
        EXPECT(table[i] == 0);
    memset(since, 255, sizeof since);
    EXPECT(settle_since() == LIMBATUE_DONE && answer[0] == 1 && since[0] == 0 && since[1] == 0 && since[2] == 0 && since[3] == UINT32_MAX);
    EXPECT(compare(0, 1) == LIMBATUE_DONE && answer[0] == LIMBATUE_SAME);
    EXPECT(finer(0, 1) == LIMBATUE_DONE && answer[0] == LIMBATUE_SAME);
    EXPECT(finer_form(1) == LIMBATUE_DONE && counts[0] == 0 && counts[1] == 0 && counts[2] == 0);
    EXPECT(shelf_field(0, 0) == LIMBATUE_DONE && shelved[0] == 0 && shelved[1] == 0 && shelved[2] == 0);
    EXPECT(REFUSED(shelf_field(1, 0), LIMBATUE_REFUSED_SHELF_NUMBER, 0));
    EXPECT(frequencies(1, 0) == LIMBATUE_DONE && are_common(3, 1, 0, 0));
    EXPECT(frequencies(1, 1) == LIMBATUE_DONE && are_common(3, 0, 0, 0)); /* no field is listed */
    EXPECT(limbatue_page(sheet, length, page, LIMBATUE_PAGE_MOST, answer, LIMBATUE_PAGE_ANSWER) == LIMBATUE_DONE && answer[0] == strlen(none) && memcmp(page, none, strlen(none)) == 0);
}

int main(void)
{
    test_version();
    test_numbers();
    test_refused_sheets();
    test_filer();
    test_walk();
    test_two_desks();
    test_refused_walks();
    test_page();
    test_shelf_number();
    test_shelf_field();
    test_squads();
    test_refused_squads();
    test_finer();
    test_refused_finer();
    test_frequencies();
    test_refused_frequencies();
    test_since();
    test_refused_since();
    test_out();
    return failures != 0;
}
