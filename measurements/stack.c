/* stack SHEET..: prints for each call of limbatue.h the most bytes of stack that it took on any of the sheets, and the bytes that the header states for it.
 * A call is made on a stack that was filled with a pattern; the lowest byte that has changed afterwards tells how deep the call went.
 * It exits 1 where a call leaves under 4,096 of the stated bytes or was done on none of the sheets, 2 on usage, 3 where a sheet can not be read or no context be made. */
#define _XOPEN_SOURCE 600
#include <stdio.h>
#include <stdlib.h>
#include <string.h>
#include <ucontext.h>

#include "limbatue.h"

enum { PATTERN = 0xA5, STACK = 1 << 20, MARGIN = 4096 };

static unsigned char stack[STACK];
static ucontext_t here, there;

/* What a call is made with, and what it returned. */
static uint8_t sheet[LIMBATUE_SHEET_MOST + 1], page[LIMBATUE_PAGE_MOST];
/* The sheet with an odd number of tokens of kind 0 in field 0: an empty squad is refused, and nothing is divided. */
static uint8_t with_squad[LIMBATUE_SHEET_MOST + 1];
/* The sheet with one kind alone in its last field, the first that was there, whose tokens are counted at `tokens`: where these are as many as the size asked for the field has its own norm, the
 * sheet is settled, and the kind's row goes into what is left of the form up to the last token. */
static uint8_t with_tokens[LIMBATUE_SHEET_MOST + 1], *tokens;
static uint32_t table[LIMBATUE_TABLE_MOST], since[LIMBATUE_COUNTS_MOST], session[LIMBATUE_DESKS], returned;
static uint64_t counts[LIMBATUE_COUNTS_MOST], answer[4];
static uint16_t field[LIMBATUE_COUNTS_MOST];
static uint32_t common[LIMBATUE_FREQUENCIES_MOST];
static size_t length, last;

static void version(void) { returned = limbatue_version() == LIMBATUE_VERSION ? 0 : 1; }
static void numbers(void) { returned = limbatue_numbers(sheet, length, answer, LIMBATUE_NUMBERS_ANSWER); }
static void settle(void) { returned = limbatue_settle(sheet, length, table, LIMBATUE_TABLE_MOST, answer, LIMBATUE_SETTLE_ANSWER); }
static void settle_since(void) { returned = limbatue_settle_since(sheet, length, table, LIMBATUE_TABLE_MOST, since, LIMBATUE_COUNTS_MOST, answer, LIMBATUE_SETTLE_SINCE_ANSWER); }
static void row_check(void) { returned = limbatue_row_check(table, LIMBATUE_TABLE_MOST, 32, 31, answer, LIMBATUE_ROW_CHECK_ANSWER); }
static void compare(void) { returned = limbatue_compare(sheet, length, 0, last, answer, LIMBATUE_COMPARE_ANSWER); }
static void prime_form(void) { returned = limbatue_prime_form(sheet, length, last, counts, LIMBATUE_COUNTS_MOST); }
static void walk(void) { returned = limbatue_walk(sheet, length, 0, last, 8, 7, session, LIMBATUE_DESKS, answer, LIMBATUE_WALK_ANSWER); }
static void write_page(void) { returned = limbatue_page(sheet, length, page, LIMBATUE_PAGE_MOST, answer, LIMBATUE_PAGE_ANSWER); }
static void shelf_number(void) { returned = limbatue_shelf_number(sheet, length, last, answer, LIMBATUE_SHELF_NUMBER_ANSWER); }
/* Of the fields of 16 tokens there is a number 16 where there are two kinds or more. */
static void shelf_field(void) { returned = limbatue_shelf_field(sheet, length, LIMBATUE_TOKENS_MOST, 16, field, LIMBATUE_COUNTS_MOST); }
static void squads(void) { returned = limbatue_squads(with_squad, length, last, 0, counts, LIMBATUE_COUNTS_MOST, answer, LIMBATUE_SQUADS_ANSWER); }
static void finer_compare(void) { returned = limbatue_finer_compare(sheet, length, 0, last, answer, LIMBATUE_FINER_COMPARE_ANSWER); }
static void finer_prime_form(void) { returned = limbatue_finer_prime_form(sheet, length, last, counts, LIMBATUE_COUNTS_MOST); }
/* Of the greatest size whose fields are listed. */
static void frequencies(void)
{
    size_t size = LIMBATUE_TOKENS_MOST;
    do {
        *tokens = (uint8_t)size;
        returned = limbatue_frequencies(with_tokens, length, last, size, common, LIMBATUE_FREQUENCIES_MOST);
    } while (LIMBATUE_NUMBER(returned) == LIMBATUE_REFUSED_ENTRY && size-- > 0);
}

static struct {
    const char *name;
    void (*call)(void);
    size_t stated, most;
    int done;
} calls[] = {
    { "version", version, LIMBATUE_VERSION_STACK, 0, 0 },
    { "numbers", numbers, LIMBATUE_NUMBERS_STACK, 0, 0 },
    { "settle", settle, LIMBATUE_SETTLE_STACK, 0, 0 },
    { "settle_since", settle_since, LIMBATUE_SETTLE_SINCE_STACK, 0, 0 },
    { "row_check", row_check, LIMBATUE_ROW_CHECK_STACK, 0, 0 },
    { "compare", compare, LIMBATUE_COMPARE_STACK, 0, 0 },
    { "prime_form", prime_form, LIMBATUE_PRIME_FORM_STACK, 0, 0 },
    { "walk", walk, LIMBATUE_WALK_STACK, 0, 0 },
    { "page", write_page, LIMBATUE_PAGE_STACK, 0, 0 },
    { "shelf_number", shelf_number, LIMBATUE_SHELF_NUMBER_STACK, 0, 0 },
    { "shelf_field", shelf_field, LIMBATUE_SHELF_FIELD_STACK, 0, 0 },
    { "squads", squads, LIMBATUE_SQUADS_STACK, 0, 0 },
    { "finer_compare", finer_compare, LIMBATUE_FINER_COMPARE_STACK, 0, 0 },
    { "finer_prime_form", finer_prime_form, LIMBATUE_FINER_PRIME_FORM_STACK, 0, 0 },
    { "frequencies", frequencies, LIMBATUE_FREQUENCIES_STACK, 0, 0 },
};
enum { CALLS = sizeof calls / sizeof calls[0] };

static void fail(const char *message, const char *what)
{
    fprintf(stderr, "stack: %s%s\n", message, what);
    exit(3);
}

/* The bytes of stack that a call took, with those of the few lines that make it. */
static size_t taken_by(void (*call)(void))
{
    size_t untouched = 0;
    memset(stack, PATTERN, STACK);
    if (getcontext(&there) != 0)
        fail("no context", "");
    there.uc_stack.ss_sp = stack;
    there.uc_stack.ss_size = STACK;
    there.uc_link = &here;
    makecontext(&there, call, 0);
    if (swapcontext(&here, &there) != 0)
        fail("no context", "");
    while (untouched < STACK && stack[untouched] == PATTERN)
        untouched++;
    return STACK - untouched;
}

static void read_sheet(const char *name)
{
    size_t at;
    FILE *file = fopen(name, "rb");
    if (file == NULL)
        fail("can not read ", name);
    length = fread(sheet, 1, sizeof sheet, file);
    if (ferror(file))
        fail("can not read ", name);
    fclose(file);
    memcpy(with_squad, sheet, sizeof sheet);
    memcpy(with_tokens, sheet, sizeof sheet);
    tokens = with_tokens + sizeof with_tokens - 1;
    last = 0;
    if (limbatue_numbers(sheet, length, answer, LIMBATUE_NUMBERS_ANSWER) == 0 && answer[3] > 0) {
        last = (size_t)answer[3] - 1;
        with_squad[20 + answer[2] * (2 + answer[0])] |= 1;
        tokens = with_tokens + length - 2 * (size_t)answer[0];
        for (at = length; at > length - 2 * (size_t)answer[0]; at -= 2) {
            if (with_tokens[at - 2] != 0 || with_tokens[at - 1] != 0)
                tokens = with_tokens + at - 2;
            with_tokens[at - 2] = with_tokens[at - 1] = 0;
        }
    }
}

static void measure(void)
{
    size_t i, taken;
    for (i = 0; i < CALLS; i++) {
        session[7] = 4000000;
        taken = taken_by(calls[i].call);
        calls[i].done |= returned == 0;
        if (taken > calls[i].most)
            calls[i].most = taken;
    }
}

int main(int argc, char **argv)
{
    int i, failed = 0;
    if (argc < 2) {
        fprintf(stderr, "usage: stack SHEET..\n");
        return 2;
    }
    for (i = 1; i < argc; i++) {
        read_sheet(argv[i]);
        measure();
    }
    for (i = 0; i < CALLS; i++) {
        int passed = calls[i].done && calls[i].most + MARGIN <= calls[i].stated && calls[i].stated <= LIMBATUE_STACK_MOST;
        printf("%-16s %6lu bytes, stated %6lu%s\n", calls[i].name, (unsigned long)calls[i].most, (unsigned long)calls[i].stated,
               passed ? "" : calls[i].done ? ": too few" : ": done on no sheet");
        failed |= !passed;
    }
    return failed;
}
