/*
 * Every constant of the header against what the library answers. For each constant one call, or a pair of calls on both sides of a limit,
 * shows that the library has the same number. The name of each constant that was shown is printed; tests/outside compares the names with
 * those of the header, so that none is left out.
 */
#include "uldhvamm.h"

#include <stdio.h>
#include <string.h>

enum { HEAD = 5, LINK = 10, LANDING = 5, SENDER = 4, END = 2, MOST_LEGS = 8200 };

static uint8_t sheet[HEAD + LINK * MOST_LEGS + LANDING * 16 + SENDER + END + 1];
static size_t size;

static uint16_t starts[MOST_LEGS], ends[MOST_LEGS], landings[2048], by_end[MOST_LEGS], places[2048];
static uint32_t prices[MOST_LEGS], cells[4096];
static uint8_t marks[2048], plan[64];
static uint64_t answer[3];
static int failures;

/* Appends bytes to the sheet. */
static void put(const char *bytes, size_t length)
{
    memcpy(sheet + size, bytes, length);
    size += length;
}

static void put_number(uint32_t number)
{
    sheet[size++] = (uint8_t)(number >> 8);
    sheet[size++] = (uint8_t)number;
}

/* Begins a sheet. */
static void head(uint32_t sites, uint32_t stations)
{
    size = 0;
    put("HD", 2);
    put_number(sites);
    sheet[size++] = (uint8_t)stations;
}

static void link_record(uint32_t from, uint32_t to, uint32_t price)
{
    put("LK", 2);
    put_number(from);
    put_number(to);
    put_number(price >> 16);
    put_number(price);
}

static void landing(uint32_t station, uint32_t site)
{
    put("ST", 2);
    sheet[size++] = (uint8_t)station;
    put_number(site);
}

static void sender(uint32_t site)
{
    put("SR", 2);
    put_number(site);
}

/* Two sites, a leg between them at 7 cents, and a station at each, without the end. */
static void begin_two_sites(void)
{
    head(2, 2);
    link_record(0, 1, 7);
    landing(0, 0);
    landing(1, 1);
}

/* The whole sheet of two sites. */
static void two_sites(void)
{
    begin_two_sites();
    put("ED", 2);
}

/* Plans the sheet, with so many entries of the marks and bytes of the plan buffer. */
static uint32_t planned(size_t mark_count, size_t byte_count)
{
    return uldhvamm_plan(sheet, size, starts, MOST_LEGS, ends, MOST_LEGS, prices, MOST_LEGS, landings, 2048, by_end, MOST_LEGS, places,
                         2048, cells, 4096, marks, mark_count, plan, byte_count, answer, 3);
}

/* Reads a plan file against the sheet. */
static uint32_t read_file(const char *file, size_t length)
{
    return uldhvamm_read_plan(sheet, size, (const uint8_t *)file, length, starts, MOST_LEGS, ends, MOST_LEGS, prices, MOST_LEGS, landings,
                              2048, marks, 2048, answer, 3);
}

/* Reads a plan file against the sheet of two sites. */
static uint32_t read_as(const char *file, size_t length)
{
    two_sites();
    return read_file(file, length);
}

/* Prints the constant's name where it has the number that the library gave. */
static void show(const char *name, uint64_t constant, uint64_t given)
{
    if (constant == given) {
        printf("%s\n", name);
    } else {
        printf("%s is %llu, and the library gives %llu\n", name, (unsigned long long)constant, (unsigned long long)given);
        failures++;
    }
}

#define SHOW(constant, given) show(#constant, constant, given)

/* Whether the head of a sheet with so many sites and stations is refused as a bad one. */
static int is_bad_head(uint32_t sites, uint32_t stations)
{
    head(sites, stations);
    return planned(2048, 64) == 3;
}

/* Whether a sheet with so many legs is refused for their number. */
static int has_too_many(uint32_t legs)
{
    uint32_t leg;
    head(2, 1);
    for (leg = 0; leg < legs; leg++) {
        link_record(0, 1, 1);
    }
    landing(0, 0);
    put("ED", 2);
    return planned(2048, 64) == 8;
}

/* A limit is shown where the number itself passes and the next is refused. */
static void show_limits(void)
{
    show("ULDHVAMM_MAX_SITES", is_bad_head(ULDHVAMM_MAX_SITES, 1) * 2 + is_bad_head(ULDHVAMM_MAX_SITES + 1, 1), 1);
    show("ULDHVAMM_MAX_STATIONS", is_bad_head(1, ULDHVAMM_MAX_STATIONS) * 2 + is_bad_head(1, ULDHVAMM_MAX_STATIONS + 1), 1);
    show("ULDHVAMM_MAX_LEGS", has_too_many(ULDHVAMM_MAX_LEGS) * 2 + has_too_many(ULDHVAMM_MAX_LEGS + 1), 1);
}

/* A sheet without a head, one that is cut after its first mark, and faults of one record after the head. */
static void show_records(void)
{
    size = 0;
    SHOW(ULDHVAMM_SHORT_SHEET, planned(2048, 64));
    put("XX", 2);
    SHOW(ULDHVAMM_STRANGE_MARK, planned(2048, 64));
    head(0, 1);
    SHOW(ULDHVAMM_BAD_HEAD, planned(2048, 64));
    head(2, 1);
    link_record(0, 2, 7);
    SHOW(ULDHVAMM_NO_SUCH_SITE, planned(2048, 64));
    head(2, 1);
    landing(1, 0);
    SHOW(ULDHVAMM_NO_SUCH_STATION, planned(2048, 64));
    head(2, 1);
    link_record(1, 1, 7);
    SHOW(ULDHVAMM_LOOP, planned(2048, 64));
    head(2, 1);
    link_record(0, 1, 0);
    SHOW(ULDHVAMM_BAD_PRICE, planned(2048, 64));
}

/* Faults of the whole sheet. */
static void show_sheets(void)
{
    has_too_many(8193);
    SHOW(ULDHVAMM_TOO_MANY_LEGS, planned(2048, 64));
    two_sites();
    put("X", 1);
    SHOW(ULDHVAMM_AFTER_THE_END, planned(2048, 64));
    head(1, 2);
    landing(0, 0);
    put("ED", 2);
    SHOW(ULDHVAMM_UNHEARD, planned(2048, 64));
}

/* Short tables, a short buffer, and a sheet that has no plan, with its table. */
static void show_planning(void)
{
    two_sites();
    SHOW(ULDHVAMM_SHORT_TABLES, planned(1, 64));
    SHOW(ULDHVAMM_SHORT_BUFFER, planned(2048, 13));
    head(2, 2);
    landing(0, 0);
    landing(1, 1);
    put("ED", 2);
    SHOW(ULDHVAMM_NO_PLAN, planned(2048, 64));
    SHOW(ULDHVAMM_NO_COST, cells[3]);
    uldhvamm_best_sender(cells, 8, landings, 2, 2, 2, 3, answer, 3);
    SHOW(ULDHVAMM_NO_SENDER, answer[0]);
}

/* The landing entry of a site that hears no station, on a sheet where every site may send. */
static void show_flag(void)
{
    head(2, 1);
    landing(0, 0);
    put("ED", 2);
    planned(2048, 64);
    SHOW(ULDHVAMM_SENDER_FLAG, landings[1]);
}

/* Plan files of the sheet of two sites: the true one is root 0, total 7, leg 0. The last is the true one where site 1 alone may send. */
static void show_files(void)
{
    SHOW(ULDHVAMM_CUT_PLAN, read_as("PN\0\0\0\0\0\7\0\1LG\0", 13));
    SHOW(ULDHVAMM_BAD_PLAN, read_as("PN\0\0\0\0\0\7\0\1LG\0\0\0", 15));
    SHOW(ULDHVAMM_UNKNOWN_NUMBER, read_as("PN\0\2\0\0\0\7\0\1LG\0\0", 14));
    SHOW(ULDHVAMM_NO_TREE, read_as("PN\0\1\0\0\0\7\0\1LG\0\0", 14));
    SHOW(ULDHVAMM_STATION_MISSED, read_as("PN\0\0\0\0\0\0\0\0", 10));
    SHOW(ULDHVAMM_FALSE_TOTAL, read_as("PN\0\0\0\0\0\10\0\1LG\0\0", 14));
    begin_two_sites();
    sender(1);
    put("ED", 2);
    SHOW(ULDHVAMM_NOT_A_SENDER, read_file("PN\0\0\0\0\0\7\0\1LG\0\0", 14));
}

int main(void)
{
    SHOW(ULDHVAMM_INTERFACE, uldhvamm_interface());
    show_limits();
    show_records();
    show_sheets();
    show_planning();
    show_flag();
    show_files();
    return failures != 0;
}
