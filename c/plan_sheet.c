/*
 * A small program over the library: plans the sheet on standard input and prints the plan as the desk program does, with tables for the
 * largest sheet. In the repository's root:
 *
 *     ./build library
 *     cc -Iinclude -o plan_sheet c/plan_sheet.c target/staticlib/libuldhvamm.a
 *     ./plan_sheet <samples/A.sheet
 *
 * The exit status is 0 for a plan, 1 for a refusal, and 2 where the library has another interface or the input is longer than any sheet
 * of `LK`, `ST` and `SR` records without a repeated `ST` or `SR`.
 */
#include "uldhvamm.h"

#include <stdio.h>

enum {
    SITES = ULDHVAMM_MAX_SITES,
    STATIONS = ULDHVAMM_MAX_STATIONS,
    LEGS = ULDHVAMM_MAX_LEGS,
    /* HD, every leg as an LK, every station's landing at every site, every site as a sender, ED */
    SHEET_BYTES = 5 + 10 * LEGS + 5 * SITES * STATIONS + 4 * SITES + 2,
    PLAN_BYTES = 10 + 4 * (SITES - 1)
};

/* One byte more than the longest sheet, so that a longer input is seen. */
static uint8_t sheet[SHEET_BYTES + 1];

static uint16_t starts[LEGS], ends[LEGS], landings[SITES], by_end[LEGS], places[SITES + 1];
static uint32_t prices[LEGS], cells[SITES << STATIONS];
static uint8_t marks[SITES], plan[PLAN_BYTES];

/* Prints the plan file's legs, from the tables that the planning has filled. */
static void print_legs(uint64_t count)
{
    uint64_t i;
    for (i = 0; i < count; i++) {
        const uint8_t *record = plan + 10 + 4 * i;
        unsigned leg = 256U * record[2] + record[3];
        printf("leg %u from %u to %u price %lu\n", leg, (unsigned)starts[leg], (unsigned)ends[leg], (unsigned long)prices[leg]);
    }
}

int main(void)
{
    uint64_t answer[3];
    uint32_t refusal;
    size_t size;

    if (uldhvamm_interface() != ULDHVAMM_INTERFACE) {
        fprintf(stderr, "the library has another interface than its header\n");
        return 2;
    }
    size = fread(sheet, 1, sizeof sheet, stdin);
    if (size > SHEET_BYTES) {
        fprintf(stderr, "too long\n");
        return 2;
    }
    refusal = uldhvamm_plan(sheet, size, starts, LEGS, ends, LEGS, prices, LEGS, landings, SITES, by_end, LEGS, places, SITES + 1, cells,
                            (size_t)SITES << STATIONS, marks, SITES, plan, PLAN_BYTES, answer, 3);
    if (refusal != 0) {
        printf("refused %lu at %llu\n", (unsigned long)refusal, (unsigned long long)answer[0]);
        return 1;
    }
    printf("root %llu total %llu legs %llu\n", (unsigned long long)answer[0], (unsigned long long)answer[1], (unsigned long long)answer[2]);
    print_legs(answer[2]);
    return 0;
}
