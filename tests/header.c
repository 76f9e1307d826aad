/*
 * The header as C: plans sheet A of document 01, asks about its cost table and two smaller ones, reads the plan file back and shares it
 * out, changes its total and sets it back, shares with a table that is one entry short or two longer and with a leg that serves no station,
 * plans an empty sheet, plans with tables of the index that are one entry short or two longer and with a short buffer, and plans, reads and
 * shares with a licence for site 1 alone. After each planning it prints the two tables of the index whole, after each sharing the share
 * table. tests/outside compiles it, links it with libuldhvamm.a, and compares what it prints.
 */
#include "uldhvamm.h"

#include <stdio.h>
#include <string.h>

enum { SITES = 4, STATIONS = 3, LEGS = 5, PLAN_BYTES = 10 + 4 * (SITES - 1), MORE = 2 };

static const uint8_t sheet_a[] = {
    'H', 'D', 0, 4, 3,
    'L', 'K', 0, 0, 0, 1, 0, 0, 0, 4,
    'L', 'K', 0, 1, 0, 2, 0, 0, 0, 3,
    'L', 'K', 0, 1, 0, 3, 0, 0, 0, 3,
    'L', 'K', 0, 0, 0, 2, 0, 0, 0, 5,
    'L', 'K', 0, 0, 0, 3, 0, 0, 0, 6,
    'S', 'T', 0, 0, 2,
    'S', 'T', 1, 0, 3,
    'S', 'T', 2, 0, 0,
    'E', 'D'
};

/* The records that stand in the place of the last one where site 1 alone may send. */
static const uint8_t licence[] = {'S', 'R', 0, 1, 'E', 'D'};

/* The cost table of two sites and one station that no site can serve; both sites are senders. */
static const uint32_t unserved[] = {0, ULDHVAMM_NO_COST, 0, ULDHVAMM_NO_COST};
static const uint16_t both_senders[] = {ULDHVAMM_SENDER_FLAG, ULDHVAMM_SENDER_FLAG};

/* The cost table of four sites and one station, which costs 4 at sites 0, 2 and 3 and 7 at site 1; site 0 is no sender. */
static const uint32_t tied[] = {0, 4, 0, 7, 0, 4, 0, 4};
static const uint16_t later_senders[] = {0, ULDHVAMM_SENDER_FLAG, ULDHVAMM_SENDER_FLAG, ULDHVAMM_SENDER_FLAG};

/* The sheet that is planned and read, and its length. */
static uint8_t sheet[sizeof sheet_a + sizeof licence];
static size_t sheet_length;

static uint16_t starts[LEGS], ends[LEGS], landings[SITES], by_end[LEGS + MORE], places[SITES + 1 + MORE];
static uint32_t prices[LEGS], cells[SITES << STATIONS], shares[STATIONS + MORE];
static uint8_t marks[SITES], plan[PLAN_BYTES];
static uint64_t answer[4];

/* Puts numbers that no sheet gives into the tables of the index. */
static void spoil_index(void)
{
    size_t i;
    for (i = 0; i < LEGS + MORE; i++) {
        by_end[i] = 60003;
    }
    for (i = 0; i < SITES + 1 + MORE; i++) {
        places[i] = 60004;
    }
}

/* Plans the sheet, with so many entries of the tables of the index and bytes of the plan buffer. The index holds strange numbers before. */
static uint32_t plan_with(size_t leg_entries, size_t place_entries, size_t bytes)
{
    spoil_index();
    return uldhvamm_plan(sheet, sheet_length, starts, LEGS, ends, LEGS, prices, LEGS, landings, SITES, by_end, leg_entries, places,
                         place_entries, cells, SITES << STATIONS, marks, SITES, plan, bytes, answer, 3);
}

/* Reads the plan buffer as a plan file of the sheet. */
static uint32_t read_plan(void)
{
    return uldhvamm_read_plan(sheet, sheet_length, plan, PLAN_BYTES, starts, LEGS, ends, LEGS, prices, LEGS, landings, SITES, marks,
                              SITES, answer, 3);
}

/* Shares the plan buffer out, with so many entries of the share table, which holds strange numbers before. */
static uint32_t share_with(size_t entries)
{
    size_t i;
    for (i = 0; i < STATIONS + MORE; i++) {
        shares[i] = 4000000007U;
    }
    return uldhvamm_shares(sheet, sheet_length, plan, PLAN_BYTES, starts, LEGS, ends, LEGS, prices, LEGS, landings, SITES, marks, SITES,
                           shares, entries, answer, 4);
}

/* Prints what was returned, and the answer. */
static void print_answer(const char *name, uint32_t number)
{
    if (number == 0) {
        printf("%s: root %u total %u legs %u\n", name, (unsigned)answer[0], (unsigned)answer[1], (unsigned)answer[2]);
    } else {
        printf("%s: refused %u at %u\n", name, (unsigned)number, (unsigned)answer[0]);
    }
}

/* Prints every entry of a table. */
static void print_table(const char *name, const uint16_t *table, size_t length)
{
    size_t i;
    printf("  %s", name);
    for (i = 0; i < length; i++) {
        printf(" %u", (unsigned)table[i]);
    }
    printf("\n");
}

/* Plans the sheet in this way, and prints the answer and the tables of the index. */
static void print_plan(const char *name, size_t leg_entries, size_t place_entries, size_t bytes)
{
    print_answer(name, plan_with(leg_entries, place_entries, bytes));
    print_table("by_end", by_end, LEGS + MORE);
    print_table("places", places, SITES + 1 + MORE);
}

/* Shares the plan buffer out in this way, and prints the answer and the share table. */
static void print_shares(const char *name, size_t entries)
{
    size_t i;
    uint32_t number = share_with(entries);
    print_answer(name, number);
    if (number == 0) {
        printf("  unassigned %u\n", (unsigned)answer[3]);
    }
    printf("  shares");
    for (i = 0; i < STATIONS + MORE; i++) {
        printf(" %u", (unsigned)shares[i]);
    }
    printf("\n");
}

/* Prints what the enquirer returned, and the answer; `none` is the answer that stands for "none". */
static void print_enquiry(const char *name, uint32_t number, uint64_t none)
{
    if (number != 0) {
        printf("%s: refused %u at %u\n", name, (unsigned)number, (unsigned)answer[0]);
    } else if (answer[0] == none) {
        printf("%s: none\n", name);
    } else {
        printf("%s: %u\n", name, (unsigned)answer[0]);
    }
}

/* Asks for a cell of the first so many entries that the planning has left, and prints the answer. */
static void ask_for_cell(const char *name, size_t length, uint32_t sites, uint32_t site, uint32_t subset)
{
    print_enquiry(name, uldhvamm_cell(cells, length, sites, STATIONS, site, subset, answer, 3), ULDHVAMM_NO_COST);
}

/* Asks for a best sender in the same way, with the first so many landing entries. */
static void ask_for_sender(const char *name, size_t length, size_t entries, uint32_t stations, uint32_t subset)
{
    uint32_t number = uldhvamm_best_sender(cells, length, landings, entries, SITES, stations, subset, answer, 3);
    print_enquiry(name, number, ULDHVAMM_NO_SENDER);
}

/* Asks about the table that the planning has left, and about the smaller ones. Subset 3 is stations 0 and 1, subset 7 all three. */
static void enquire(void)
{
    const size_t length = SITES << STATIONS;
    ask_for_cell("cell of site 1, subset 3", length, SITES, 1, 3);
    ask_for_cell("cell of site 1, subset 7", length, SITES, 1, 7);
    ask_for_cell("cell, no sites", length, 0, 1, 3);
    ask_for_cell("cell, table one entry short", length - 1, SITES, 1, 3);
    ask_for_cell("cell of site 4", length, SITES, 4, 3);
    ask_for_cell("cell of subset 8", length, SITES, 1, 8);
    ask_for_sender("sender of subset 0", length, SITES, STATIONS, 0);
    ask_for_sender("sender of subset 3", length, SITES, STATIONS, 3);
    ask_for_sender("sender of subset 7", length, SITES, STATIONS, 7);
    ask_for_sender("sender, 11 stations", length, SITES, 11, 3);
    ask_for_sender("sender, table one entry short", length - 1, SITES, STATIONS, 3);
    ask_for_sender("sender, landings one entry short", length, SITES - 1, STATIONS, 3);
    ask_for_sender("sender of subset 8", length, SITES, STATIONS, 8);
    print_enquiry("sender of an unserved station", uldhvamm_best_sender(unserved, 4, both_senders, 2, 2, 1, 1, answer, 3),
                  ULDHVAMM_NO_SENDER);
    print_enquiry("the lowest of the cheapest senders", uldhvamm_best_sender(tied, 8, later_senders, 4, 4, 1, 1, answer, 3),
                  ULDHVAMM_NO_SENDER);
    print_enquiry("the lowest sender, of subset 0", uldhvamm_best_sender(tied, 8, later_senders, 4, 4, 1, 0, answer, 3),
                  ULDHVAMM_NO_SENDER);
}

/*
 * Shares A's plan with a share table just long enough, one entry short and two longer, with a false total, and then the tree of legs 3, 0
 * and 4 for 15 cents, in which leg 0 serves no station. The plan buffer is left as it was.
 */
static void try_shares(void)
{
    uint8_t kept[PLAN_BYTES];
    memcpy(kept, plan, PLAN_BYTES);
    print_shares("shares", STATIONS);
    print_shares("shares, table one entry short", STATIONS - 1);
    print_shares("shares, longer table", STATIONS + MORE);
    plan[7] = 11;
    print_shares("shares, false total", STATIONS);
    plan[7] = 15;
    plan[13] = 3;
    plan[17] = 0;
    plan[21] = 4;
    print_shares("shares, a leg for no station", STATIONS);
    memcpy(plan, kept, PLAN_BYTES);
}

/* Plans with each table of the index one entry short, with both two entries longer, and with a buffer that is one byte short. */
static void try_lengths(void)
{
    print_plan("plan, by_end one entry short", LEGS - 1, SITES + 1, PLAN_BYTES);
    print_plan("plan, places one entry short", LEGS, SITES, PLAN_BYTES);
    print_plan("plan, longer by_end and places", LEGS + MORE, SITES + 1 + MORE, PLAN_BYTES);
    print_plan("plan, buffer one byte short", LEGS, SITES + 1, PLAN_BYTES - 1);
}

/*
 * Site 1 alone may send: there is no plan, site 1 is the best sender of no station and of stations 0 and 1, and A's plan file, which the
 * buffer still holds, is refused: its root is site 0.
 */
static void try_licence(void)
{
    memcpy(sheet + sizeof sheet_a - 2, licence, sizeof licence);
    sheet_length = sizeof sheet_a - 2 + sizeof licence;
    print_plan("plan with one sender", LEGS, SITES + 1, PLAN_BYTES);
    printf("landing entries: %u %u\n", (unsigned)landings[0], (unsigned)landings[1]);
    ask_for_sender("sender of subset 0", SITES << STATIONS, SITES, STATIONS, 0);
    ask_for_sender("sender of subset 3", SITES << STATIONS, SITES, STATIONS, 3);
    ask_for_sender("sender of subset 7", SITES << STATIONS, SITES, STATIONS, 7);
    print_answer("read with one sender", read_plan());
    print_shares("shares with one sender", STATIONS);
}

/* Prints the legs in the plan buffer. */
static void print_legs(void)
{
    size_t i;
    for (i = 10; i < PLAN_BYTES; i += 4) {
        unsigned leg = 256U * plan[i + 2] + plan[i + 3];
        printf("leg %u from %u to %u price %u\n", leg, (unsigned)starts[leg], (unsigned)ends[leg], (unsigned)prices[leg]);
    }
}

int main(void)
{
    memcpy(sheet, sheet_a, sizeof sheet_a);
    sheet_length = sizeof sheet_a;
    print_plan("plan", LEGS, SITES + 1, PLAN_BYTES);
    print_legs();
    printf("none: %s\n", cells[15] == ULDHVAMM_NO_COST ? "as named" : "another number");
    enquire();
    print_answer("read", read_plan());
    plan[7] = 11;
    printf("false total: %s\n", read_plan() == ULDHVAMM_FALSE_TOTAL ? "as named" : "another number");
    plan[7] = 10;
    try_shares();
    try_lengths();
    sheet_length = 0;
    print_plan("empty", LEGS, SITES + 1, PLAN_BYTES);
    try_licence();
    return 0;
}
