/* verdict FIRST SECOND < SHEET: settles a sheet and prints the verdict on two of its fields, which are named by number.
 * It exits 0 where the verdict was printed, 1 where the sheet or a number was refused, 2 on usage, 3 where input or output failed. */
#include <inttypes.h>
#include <stdio.h>

#include "limbatue.h"

enum { REFUSED = 1, USAGE = 2, FAILED = 3 };

/* Reads a word of decimal digits alone, whose number fits. Answers 0 where it is none. */
static int read_number(const char *word, size_t *number)
{
    *number = 0;
    if (*word == '\0')
        return 0;
    for (; *word != '\0'; word++) {
        size_t digit = (size_t)(*word - '0');
        if (*word < '0' || *word > '9' || *number > (SIZE_MAX - digit) / 10)
            return 0;
        *number = 10 * *number + digit;
    }
    return 1;
}

/* Prints the verdict, or the refusal. Answers the exit status. */
static int print_verdict(const uint8_t *sheet, size_t length, size_t first, size_t second)
{
    static uint32_t table[LIMBATUE_TABLE_MOST];
    uint64_t stage[LIMBATUE_SETTLE_ANSWER], verdict[LIMBATUE_COMPARE_ANSWER];
    uint32_t returned = limbatue_settle(sheet, length, table, LIMBATUE_TABLE_MOST, stage, LIMBATUE_SETTLE_ANSWER);
    if (returned == LIMBATUE_DONE)
        returned = limbatue_compare(sheet, length, first, second, verdict, LIMBATUE_COMPARE_ANSWER);
    if (returned != LIMBATUE_DONE) {
        printf("refused %" PRIu32 " %" PRIu32 "\n", LIMBATUE_NUMBER(returned), LIMBATUE_PLACE(returned));
        return REFUSED;
    }
    printf("stages %" PRIu64 "\n", stage[0]);
    if (verdict[0] == LIMBATUE_SAME)
        printf("same\n");
    else
        printf("different %" PRIu64 " %" PRIu64 "\n", verdict[1], verdict[2]);
    return 0;
}

int main(int argc, char **argv)
{
    static uint8_t sheet[LIMBATUE_SHEET_MOST + 1]; /* one byte more than the longest, so that a longer sheet is refused and not cut */
    size_t length, first, second;
    int status;
    if (argc != 3 || !read_number(argv[1], &first) || !read_number(argv[2], &second)) {
        fprintf(stderr, "usage: verdict FIRST SECOND < SHEET\n");
        return USAGE;
    }
    length = fread(sheet, 1, sizeof sheet, stdin);
    if (ferror(stdin)) {
        fprintf(stderr, "verdict: can not read standard input\n");
        return FAILED;
    }
    status = print_verdict(sheet, length, first, second);
    if (fflush(stdout) != 0 || ferror(stdout)) {
        fprintf(stderr, "verdict: can not write standard output\n");
        return FAILED;
    }
    return status;
}
