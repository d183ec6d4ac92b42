/* threads SHEET..: every call, made on every sheet by two threads at once, many times, answers what it answers where one thread calls alone. Exits 0 where it does, else 1; 3 where a sheet can not be read. */
#include <pthread.h>
#include <stdio.h>
#include <stdlib.h>
#include <string.h>

#include "limbatue.h"

enum { SHEETS = 16, TIMES = 50 };

/* Everything that the calls answer and write, on one sheet. The field asked for has 16 tokens and the number 16, which there is with two kinds or more; frequencies are asked of the fields of 2 tokens. */
struct outcome {
    uint32_t returned[13], table[LIMBATUE_TABLE_MOST], table_since[LIMBATUE_TABLE_MOST], since[LIMBATUE_COUNTS_MOST], session[LIMBATUE_DESKS], frequencies[LIMBATUE_FREQUENCIES_MOST];
    uint64_t numbers[LIMBATUE_NUMBERS_ANSWER], stage[LIMBATUE_SETTLE_ANSWER], stage_since[LIMBATUE_SETTLE_SINCE_ANSWER], verdict[LIMBATUE_COMPARE_ANSWER], counts[LIMBATUE_COUNTS_MOST], walked[LIMBATUE_WALK_ANSWER], length[LIMBATUE_PAGE_ANSWER], shelved[LIMBATUE_SHELF_NUMBER_ANSWER], squads[LIMBATUE_SQUADS_ANSWER], remainder[LIMBATUE_COUNTS_MOST], finer_verdict[LIMBATUE_FINER_COMPARE_ANSWER], finer_counts[LIMBATUE_COUNTS_MOST];
    uint16_t field[LIMBATUE_COUNTS_MOST];
    uint8_t page[LIMBATUE_PAGE_MOST];
};

static struct {
    uint8_t bytes[LIMBATUE_SHEET_MOST + 1];
    size_t length;
    struct outcome alone;
} sheets[SHEETS];
static int count;

static void call_all(const uint8_t *sheet, size_t length, struct outcome *o)
{
    memset(o, 0, sizeof *o);
    o->session[5] = 20000;
    o->returned[0] = limbatue_numbers(sheet, length, o->numbers, LIMBATUE_NUMBERS_ANSWER);
    o->returned[1] = limbatue_settle(sheet, length, o->table, LIMBATUE_TABLE_MOST, o->stage, LIMBATUE_SETTLE_ANSWER);
    o->returned[2] = limbatue_compare(sheet, length, 0, 1, o->verdict, LIMBATUE_COMPARE_ANSWER);
    o->returned[3] = limbatue_prime_form(sheet, length, 1, o->counts, LIMBATUE_COUNTS_MOST);
    o->returned[4] = limbatue_walk(sheet, length, 0, 1, 8, 5, o->session, LIMBATUE_DESKS, o->walked, LIMBATUE_WALK_ANSWER);
    o->returned[5] = limbatue_page(sheet, length, o->page, LIMBATUE_PAGE_MOST, o->length, LIMBATUE_PAGE_ANSWER);
    o->returned[6] = limbatue_shelf_number(sheet, length, 1, o->shelved, LIMBATUE_SHELF_NUMBER_ANSWER);
    o->returned[7] = limbatue_shelf_field(sheet, length, LIMBATUE_TOKENS_MOST, 16, o->field, LIMBATUE_COUNTS_MOST);
    o->returned[8] = limbatue_squads(sheet, length, 1, 0, o->remainder, LIMBATUE_COUNTS_MOST, o->squads, LIMBATUE_SQUADS_ANSWER);
    o->returned[9] = limbatue_finer_compare(sheet, length, 0, 1, o->finer_verdict, LIMBATUE_FINER_COMPARE_ANSWER);
    o->returned[10] = limbatue_finer_prime_form(sheet, length, 1, o->finer_counts, LIMBATUE_COUNTS_MOST);
    o->returned[11] = limbatue_frequencies(sheet, length, 1, 2, o->frequencies, LIMBATUE_FREQUENCIES_MOST);
    o->returned[12] = limbatue_settle_since(sheet, length, o->table_since, LIMBATUE_TABLE_MOST, o->since, LIMBATUE_COUNTS_MOST, o->stage_since, LIMBATUE_SETTLE_SINCE_ANSWER);
}

/* Answers NULL where every outcome was that of the calls alone. The two threads go through the sheets in opposite directions. */
static void *call_often(void *backwards)
{
    struct outcome *o = (struct outcome *)malloc(sizeof *o);
    int i, differ = o == NULL;
    for (i = 0; i < TIMES * count && !differ; i++) {
        int at = backwards != NULL ? count - 1 - i % count : i % count;
        call_all(sheets[at].bytes, sheets[at].length, o);
        differ = memcmp(o, &sheets[at].alone, sizeof *o) != 0;
    }
    free(o);
    return differ ? &count : NULL;
}

int main(int argc, char **argv)
{
    pthread_t first, second;
    void *one, *other;
    for (count = 0; count + 1 < argc && count < SHEETS; count++) {
        FILE *file = fopen(argv[count + 1], "rb");
        if (file == NULL) {
            fprintf(stderr, "threads: can not read %s\n", argv[count + 1]);
            return 3;
        }
        sheets[count].length = fread(sheets[count].bytes, 1, sizeof sheets[count].bytes, file);
        fclose(file);
        call_all(sheets[count].bytes, sheets[count].length, &sheets[count].alone);
    }
    if (pthread_create(&first, NULL, call_often, NULL) != 0 || pthread_create(&second, NULL, call_often, &count) != 0)
        return 3;
    pthread_join(first, &one);
    pthread_join(second, &other);
    if (one != NULL || other != NULL)
        fprintf(stderr, "threads: two threads do not get what one does\n");
    return one != NULL || other != NULL;
}
