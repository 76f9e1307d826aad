/*
 * Uldhvamm, a planner of radio relays: the planning, the plan reader, the shares and the enquirer as C functions.
 *
 * Link with libuldhvamm.a, which `rt staticlib uldhvamm` writes to target/staticlib. It needs no runtime; of the C library it calls only
 * memset.
 *
 * Slices
 *   A table or a byte string passes as a pointer and the number of its entries. C asks of the pointers what it asks everywhere: each
 *   points to that many entries, aligned for their type and, where the pointer is not const, writable; what is written overlaps
 *   nothing else that is passed. Where the number of entries is 0 the pointer may be any, also NULL. Nothing else is asked: every byte
 *   string and every number is answered, and the tables and the buffer may hold anything and have any length.
 *
 * What is returned
 *   0 for a plan, an accepted plan file, the shares of one, a cell, a best sender and ULDHVAMM_NO_SENDER; else the number of the
 *   refusal, ULDHVAMM_SHORT_SHEET to ULDHVAMM_NOT_A_SENDER below.
 *
 * What is written to answer
 *   for a plan or an accepted plan file: root (the sending site), total (cents), number of legs; for shares: the same, and the unassigned
 *   sum (cents); for a cell: the cell; for a best sender: its site, or ULDHVAMM_NO_SENDER; for a refusal: its place.
 *   As many of these as answer has entries for are written, from its first entry on; its other entries are untouched.
 *
 * Landing entries
 *   Entry v of landings is the set of the stations that are heard at site v, a number in which station i is worth 2^i, and
 *   ULDHVAMM_SENDER_FLAG more where site v is a sender, a site from which a plan may be sent. A sheet marks its senders by records SR; one
 *   without SR makes every site a sender. A best sender is asked for with landing entries that the caller lends: an entry is a sender's
 *   where its bit ULDHVAMM_SENDER_FLAG is set, whatever its other bits are.
 *
 * The index of the legs by their end
 *   The engine fills it. by_end has the leg numbers, one entry a leg, grouped by the site that the leg ends at, lowest site first, in leg
 *   order within. Entry v of places is the number of legs that end at a site below v, for v from 0 to the number of sites. So the legs that
 *   end at site v are the entries of by_end from places[v] up to, and without, places[v + 1]; the last entry of places is the number of
 *   legs.
 *
 * Interface
 *   The parameters, widths and values below are those of interface ULDHVAMM_INTERFACE. A library may be older or newer than the header: a
 *   program calls uldhvamm_interface() first, and calls nothing else where it gives another number.
 *
 * Stack
 *   A call allocates nothing, keeps nothing and may run in any number of threads at once. As measured (bench/tests/stack.rs), it runs in a
 *   thread with 56 KiB of stack; nothing proves this.
 */
#ifndef ULDHVAMM_H
#define ULDHVAMM_H

#include <stddef.h>
#include <stdint.h>

#ifdef __cplusplus
extern "C" {
#endif

/* The interface that this header declares. */
#define ULDHVAMM_INTERFACE 3

/*
 * The limits of a sheet, a cell for which there is no tree ("none"), the answer that no site is a best sender, and what is added to the
 * landing entry of a sender.
 */
#define ULDHVAMM_MAX_SITES 1024
#define ULDHVAMM_MAX_STATIONS 10
#define ULDHVAMM_MAX_LEGS 8192
#define ULDHVAMM_NO_COST UINT32_C(4294967295)
#define ULDHVAMM_NO_SENDER UINT64_MAX
#define ULDHVAMM_SENDER_FLAG 1024

/*
 * The refusals. The place of 1 to 10 counts in the sheet, that of 15 and 16 in the plan file; that of the others, and of all that the
 * enquirer gives, is 0.
 */
enum {
    ULDHVAMM_SHORT_SHEET = 1,
    ULDHVAMM_STRANGE_MARK = 2,
    ULDHVAMM_BAD_HEAD = 3,
    ULDHVAMM_NO_SUCH_SITE = 4,
    ULDHVAMM_NO_SUCH_STATION = 5,
    ULDHVAMM_LOOP = 6,
    ULDHVAMM_BAD_PRICE = 7,
    ULDHVAMM_TOO_MANY_LEGS = 8,
    ULDHVAMM_AFTER_THE_END = 9,
    ULDHVAMM_UNHEARD = 10,
    ULDHVAMM_SHORT_TABLES = 11,
    ULDHVAMM_NO_PLAN = 12,
    ULDHVAMM_SHORT_BUFFER = 13,
    ULDHVAMM_CUT_PLAN = 14,
    ULDHVAMM_BAD_PLAN = 15,
    ULDHVAMM_UNKNOWN_NUMBER = 16,
    ULDHVAMM_NO_TREE = 17,
    ULDHVAMM_STATION_MISSED = 18,
    ULDHVAMM_FALSE_TOTAL = 19,
    ULDHVAMM_NOT_A_SENDER = 20
};

/* The interface of the library: ULDHVAMM_INTERFACE where this header is the library's. Every library has this function. */
uint32_t uldhvamm_interface(void);

/*
 * The engine: plans a sheet of n sites, k stations and m legs, and writes the plan file to the plan buffer. The root of the plan is a
 * sender; ULDHVAMM_NO_PLAN says that from no sender legs lead to every station.
 *
 * Long enough are: starts, ends, prices and by_end with m entries, landings with n, places with n + 1, cells with n times 2^k, marks with
 * n; ULDHVAMM_SHORT_TABLES says that one of these is shorter. Longer ones are as good. A plan file has 10 bytes and 4 for each leg, so
 * 10 + 4 * (n - 1) bytes are always enough.
 *
 * After a plan, the first entries of the tables hold the legs in order (start, end, price), each site's landing entry, the index of the
 * legs by their end, the costs of all sites, senders or not, and 1 in each mark; the plan buffer begins with the plan file.
 * ULDHVAMM_NO_PLAN and ULDHVAMM_SHORT_BUFFER leave the tables as after a plan, and the plan buffer untouched. The refusals 1 to 11 touch
 * nothing but answer. Later entries and bytes are untouched.
 */
uint32_t uldhvamm_plan(
    const uint8_t *sheet, size_t sheet_length,
    uint16_t *starts, size_t starts_length,
    uint16_t *ends, size_t ends_length,
    uint32_t *prices, size_t prices_length,
    uint16_t *landings, size_t landings_length,
    uint16_t *by_end, size_t by_end_length,
    uint16_t *places, size_t places_length,
    uint32_t *cells, size_t cells_length,
    uint8_t *marks, size_t marks_length,
    uint8_t *plan, size_t plan_length,
    uint64_t *answer, size_t answer_length);

/*
 * The plan reader: accepts a plan file, whoever wrote it, exactly when it is the file of a directed tree of the sheet's legs whose root is
 * a sender and that holds a landing of every station, with its true total. ULDHVAMM_NOT_A_SENDER is tested after ULDHVAMM_NO_TREE and
 * before ULDHVAMM_STATION_MISSED.
 *
 * The tables are as for the engine, without by_end, places and cells. From ULDHVAMM_CUT_PLAN on and on acceptance the leg and landing
 * tables are filled; from ULDHVAMM_NO_TREE on and on acceptance the first n marks are 1 for the sites that the listed legs reach from the
 * root, else 0. Before, the marks are untouched; the refusals 1 to 11 touch nothing but answer. Later entries are untouched.
 */
uint32_t uldhvamm_read_plan(
    const uint8_t *sheet, size_t sheet_length,
    const uint8_t *file, size_t file_length,
    uint16_t *starts, size_t starts_length,
    uint16_t *ends, size_t ends_length,
    uint32_t *prices, size_t prices_length,
    uint16_t *landings, size_t landings_length,
    uint8_t *marks, size_t marks_length,
    uint64_t *answer, size_t answer_length);

/*
 * The shares: reads a plan file as uldhvamm_read_plan does and, where it is accepted, splits the price of each listed leg over the stations
 * that the leg serves.
 *
 * A station sits at its lowest-numbered landing among the sites that the plan holds, which are its root and the ends of its legs. A leg
 * serves the stations that sit at or below its end: at its end, or at a site to which listed legs lead from there. Of m stations that a leg
 * serves each pays the quotient of the price by m, and the lowest-numbered ones pay a cent more each until the remainder is used. The price
 * of a leg that serves no station goes to the unassigned sum. The shares and the unassigned sum make the total. In a plan that
 * uldhvamm_plan writes, the unassigned sum is 0.
 *
 * Refusals, places and tables are those of uldhvamm_read_plan, but ULDHVAMM_SHORT_TABLES also says that shares has fewer than k entries, k
 * being the number of stations. On acceptance entry i of shares, for i below k, is the share of station i in cents, and answer has four
 * values: root, total, number of legs, unassigned sum. On a refusal shares is untouched; its entries from k on are always untouched.
 */
uint32_t uldhvamm_shares(
    const uint8_t *sheet, size_t sheet_length,
    const uint8_t *file, size_t file_length,
    uint16_t *starts, size_t starts_length,
    uint16_t *ends, size_t ends_length,
    uint32_t *prices, size_t prices_length,
    uint16_t *landings, size_t landings_length,
    uint8_t *marks, size_t marks_length,
    uint32_t *shares, size_t shares_length,
    uint64_t *answer, size_t answer_length);

/*
 * The enquirer: two questions about a finished cost table of n = sites and k = stations, as uldhvamm_plan leaves it in cells after a
 * plan, ULDHVAMM_NO_PLAN or ULDHVAMM_SHORT_BUFFER. A subset of the stations is a number below 2^k, in which station i is worth 2^i.
 * Cell v times 2^k + W is the least total in cents of a directed tree with root v that holds a landing of each station in W, or
 * ULDHVAMM_NO_COST where there is none. That it is so rests on the caller: every table is read as it stands.
 *
 * Refused are, in this order, each at place 0: ULDHVAMM_BAD_HEAD, where n is not 1 to ULDHVAMM_MAX_SITES or k is not 1 to
 * ULDHVAMM_MAX_STATIONS; ULDHVAMM_SHORT_TABLES, where cells has fewer than n times 2^k entries or, for a best sender, landings has fewer
 * than n (more are as good); ULDHVAMM_NO_SUCH_SITE, where a site is asked about that is n or more; ULDHVAMM_NO_SUCH_STATION, where the
 * subset is 2^k or more. Nothing but answer is written.
 */

/* The cell of a site and a subset, as it stands in the table. ULDHVAMM_NO_COST is an answer too, and no refusal. */
uint32_t uldhvamm_cell(
    const uint32_t *cells, size_t cells_length,
    uint32_t sites, uint32_t stations,
    uint32_t site, uint32_t subset,
    uint64_t *answer, size_t answer_length);

/*
 * The best sender of a subset: of the senders by landings the lowest of those whose cell of that subset is least, where that cell is not
 * ULDHVAMM_NO_COST; ULDHVAMM_NO_SENDER where every sender's cell of that subset is ULDHVAMM_NO_COST or there is no sender. So over the
 * tables that uldhvamm_plan leaves the best sender of all stations is the root of the plan, and that of subset 0 is the lowest sender.
 * landings is as uldhvamm_plan leaves it beside the cells; that it is so rests on the caller too.
 */
uint32_t uldhvamm_best_sender(
    const uint32_t *cells, size_t cells_length,
    const uint16_t *landings, size_t landings_length,
    uint32_t sites, uint32_t stations,
    uint32_t subset,
    uint64_t *answer, size_t answer_length);

#ifdef __cplusplus
}
#endif

#endif
