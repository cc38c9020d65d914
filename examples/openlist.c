/* Plans a hall file, its rows in one call and its cuts in another, and prints the list: openlist HALL
 *
 *     tools/build himalowen
 *     cc -O2 -I include -o openlist examples/openlist.c target/staticlib/libhimalowen.a
 */
#include <inttypes.h>
#include <stdio.h>

#include "himalowen.h"

static uint8_t file[65537];
static uint32_t rows[HIMALOWEN_ROW_PLACES];
static uint64_t shores[HIMALOWEN_CUT_PLACES];
static uint32_t weights[HIMALOWEN_CUT_PLACES];
static int32_t levels[HIMALOWEN_LEVEL_PLACES];
static uint64_t of_rows[HIMALOWEN_PLANNED_PLACES];
static uint64_t of_cuts[HIMALOWEN_PLANNED_PLACES];

static uint32_t number(size_t at, int width)
{
    uint32_t value = 0;
    while (width-- > 0)
        value = value << 8 | file[at + width];
    return value;
}

/* How many rows the blocks of an accepted file hold. */
static uint32_t row_count(void)
{
    uint32_t count = 0;
    for (uint32_t k = 0; k < number(2, 2); k++)
        count += number(8 + 8 * k, 4) / 8;
    return count;
}

/* Where row i of an accepted file stands; rows are numbered from 1 through the blocks. */
static size_t row_place(uint32_t i)
{
    uint32_t k = 0;
    for (i--; i >= number(8 + 8 * k, 4) / 8; k++)
        i -= number(8 + 8 * k, 4) / 8;
    return number(4 + 8 * k, 4) + 8 * i;
}

static void print_rows(void)
{
    printf("HALL %" PRIu64 " %" PRIu32 "\n", of_cuts[HIMALOWEN_LEVELS], row_count());
    printf("OPEN %" PRIu64 "\n", of_rows[HIMALOWEN_CHOSEN]);
    for (uint64_t k = 0; k < of_rows[HIMALOWEN_CHOSEN]; k++) {
        size_t at = row_place(rows[k]);
        printf("%" PRIu32 " %" PRIu32 " %" PRIu32 " %" PRIu32 "\n", rows[k], number(at, 2), number(at + 2, 2), number(at + 4, 4));
    }
    printf("TOTAL %" PRIu64 "\n", of_rows[HIMALOWEN_TOTAL]);
}

static void print_cuts(void)
{
    printf("CUTS %" PRIu64 "\n", of_cuts[HIMALOWEN_CUTS]);
    for (uint64_t k = 0; k < of_cuts[HIMALOWEN_CUTS]; k++) {
        printf("%" PRIu32, weights[k]);
        for (int j = 1; j <= 64; j++)
            if (shores[k] >> (j - 1) & 1)
                printf(" %d", j);
        printf("\n");
    }
}

static void print_levels(void)
{
    printf("LEVELS");
    for (uint64_t j = 0; j < of_cuts[HIMALOWEN_LEVELS]; j++)
        printf(" %" PRId32, levels[j]);
    printf("\n");
}

int main(int count, char **words)
{
    FILE *in = count == 2 ? fopen(words[1], "rb") : NULL;
    if (!in) {
        fprintf(stderr, "usage: openlist HALL\n");
        return 1;
    }
    size_t size = fread(file, 1, sizeof file, in);
    if (ferror(in)) {
        perror(words[1]);
        return 1;
    }
    fclose(in);
    if (himalowen_plan_rows(file, size, rows, HIMALOWEN_ROW_PLACES, of_rows)) {
        printf("REFUSED %" PRIu64 " %" PRIu64 "\n", of_rows[HIMALOWEN_NUMBER], of_rows[HIMALOWEN_ROW]);
        return 0;
    }
    /* The cuts' call refuses no file that the rows' call accepts. */
    himalowen_plan_cuts(file, size, shores, HIMALOWEN_CUT_PLACES, weights, HIMALOWEN_CUT_PLACES, levels,
                        HIMALOWEN_LEVEL_PLACES, of_cuts);
    print_rows();
    print_cuts();
    print_levels();
    return 0;
}
