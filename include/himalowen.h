/* Opening one-way lanes at least cost: the calls of libhimalowen.a.
 *
 * A list is a pointer, never NULL, and the number of its places, which may be 0. What a call may write overlaps nothing else
 * that it is lent. Junction j counts 2^(j - 1) in a junction set; rows and junctions count from 1.
 *
 * Every call gives back the refusal's number, 1 to 15 without 7, or 0 for none. The reply holds the same number, the
 * refusal's row (0 where its kind carries none) and the results, which are 0 after a refusal; all its places are written.
 * Lists are written only where the number is 0, and then only in their first places, as many as the reply says. All places of
 * a site are written where the number is 0 or a start is refused; any other refusal leaves in each what it held.
 *
 * A row from a junction to itself is a row as any other: it has its number and may be chosen. No plan opens it.
 * A fixed row has its number too, but may not be chosen (10), and no plan opens it; a hall in which some directed cut
 * has fixed rows only is refused with 15, by every call that is lent its file, before 10, 11, 13 and 14.
 */
#ifndef HIMALOWEN_H
#define HIMALOWEN_H

#include <stddef.h>
#include <stdint.h>

#ifdef __cplusplus
extern "C" {
#endif

/* The number of places of each reply, the least number of places of each list lent to a plan, to a route or to
 * himalowen_with_without, and the number of places of a site. */
enum {
    HIMALOWEN_TOLD_PLACES = 4,
    HIMALOWEN_ROUTED_PLACES = 5,
    HIMALOWEN_SCREENED_PLACES = 4,
    HIMALOWEN_PLANNED_PLACES = 4,
    HIMALOWEN_TOTALS_PLACES = 3,
    HIMALOWEN_SITE_REPLY_PLACES = 2,
    HIMALOWEN_ROW_PLACES = 256,
    HIMALOWEN_CUT_PLACES = 125,
    HIMALOWEN_LEVEL_PLACES = 64,
    HIMALOWEN_ROUTE_PLACES = 63,
    HIMALOWEN_SITE_PLACES = 2059
};

/* Places of every reply. */
enum { HIMALOWEN_NUMBER = 0, HIMALOWEN_ROW = 1 };

/* Places of the reply of himalowen_check, himalowen_tight and himalowen_route, and of the last alone the filled length. */
enum { HIMALOWEN_OUTCOME = 2, HIMALOWEN_SET = 3, HIMALOWEN_FILLED = 4 };

/* Places of the reply of himalowen_over_figure: 1 where the choice costs more, else 0, and how many of its rows were read. */
enum { HIMALOWEN_OVER = 2, HIMALOWEN_READ = 3 };

/* Places of the reply of himalowen_plan_rows: how many rows are filled in, and their total. */
enum { HIMALOWEN_CHOSEN = 2, HIMALOWEN_TOTAL = 3 };

/* Places of the reply of himalowen_plan_cuts: how many cuts, and how many levels, are filled in. */
enum { HIMALOWEN_CUTS = 2, HIMALOWEN_LEVELS = 3 };

/* Place of the reply of himalowen_with_without: of how many rows the totals are filled in. */
enum { HIMALOWEN_ROWS_FILLED = 2 };

/* What stands in the lists of himalowen_with_without instead of totals: in the second for a row that every joining choice has,
 * and in both for a fixed row. */
#define HIMALOWEN_NONE UINT32_C(0xFFFFFFFF)
#define HIMALOWEN_FIXED UINT32_C(0xFFFFFFFE)

/* Places of a site: its stock, the kits left, how many halls it has, then the length of each hall's plan, then the plans' rows,
 * those of hall k, counted from 0, from place HIMALOWEN_SITE_ROWS + k * HIMALOWEN_ROW_PLACES on. */
enum {
    HIMALOWEN_SITE_STOCK = 0,
    HIMALOWEN_SITE_LEFT = 1,
    HIMALOWEN_SITE_HALLS = 2,
    HIMALOWEN_SITE_LENGTHS = 3,
    HIMALOWEN_SITE_ROWS = 11
};

/* Outcomes. The set is the missed shore or the neighbourhood, else 0. */
enum { HIMALOWEN_JOINS = 1, HIMALOWEN_MISSES = 2, HIMALOWEN_AROUND = 3, HIMALOWEN_ROUTE = 4 };

/* Whether the chosen rows, ascending, join the hall; if not, a shore that they miss. */
uint32_t himalowen_check(const uint8_t *file, size_t file_length,
                         const uint32_t *choice, size_t choice_length,
                         uint64_t reply[HIMALOWEN_TOLD_PLACES]);

/* The tight neighbourhood of a junction for a joining choice; for another choice, the check's reply. */
uint32_t himalowen_tight(const uint8_t *file, size_t file_length,
                         const uint32_t *choice, size_t choice_length,
                         uint32_t junction,
                         uint64_t reply[HIMALOWEN_TOLD_PLACES]);

/* The route with the fewest rows from one junction to another, over rows forward and chosen rows backward, for a joining
 * choice; of such routes the one whose row numbers, in travelling order, come first in dictionary order. Each row stands
 * as its number, below 0 where it is run backward; a junction to itself is the empty route. For a choice that misses a
 * cut, the check's reply. 11 if either junction is outside 1 to n, after 10 and before the check's reply. */
uint32_t himalowen_route(const uint8_t *file, size_t file_length,
                         const uint32_t *choice, size_t choice_length,
                         uint32_t from, uint32_t to,
                         int32_t *rows, size_t rows_length,
                         uint64_t reply[HIMALOWEN_ROUTED_PLACES]);

/* Whether the chosen rows, ascending, which need not join, cost more than a figure. They are read in order, and no further than
 * until their prices add up to more: the reply tells how many were read. */
uint32_t himalowen_over_figure(const uint8_t *file, size_t file_length,
                               const uint32_t *choice, size_t choice_length,
                               uint32_t figure,
                               uint64_t reply[HIMALOWEN_SCREENED_PLACES]);

/* A plan is asked for in two calls, in any order, and either may be left out. For the same file both speak of one plan: the
 * weights of himalowen_plan_cuts add up to the total of himalowen_plan_rows. Refusal 1 looks in each call only at the lists
 * lent to it: in the rows' call at the rows, in the cuts' call at the shores, the weights and the levels. Any other refusal
 * of a file is the same in both. */

/* The first joining choice by total, row count and dictionary order, and its total. */
uint32_t himalowen_plan_rows(const uint8_t *file, size_t file_length,
                             uint32_t *rows, size_t rows_length,
                             uint64_t reply[HIMALOWEN_PLANNED_PLACES]);

/* The cuts beside that choice, each a shore and a weight, and the level of each junction. */
uint32_t himalowen_plan_cuts(const uint8_t *file, size_t file_length,
                             uint64_t *shores, size_t shores_length,
                             uint32_t *weights, size_t weights_length,
                             int32_t *levels, size_t levels_length,
                             uint64_t reply[HIMALOWEN_PLANNED_PLACES]);

/* For each row the least total of the joining choices with it, and of those without it; row i's stand in place i - 1 of both
 * lists. The smaller of a row's totals, or its only one, is that of himalowen_plan_rows; for a row that the plan opens it is the
 * one with it. Each list has at least HIMALOWEN_ROW_PLACES places, or it is refused with 1. */
uint32_t himalowen_with_without(const uint8_t *file, size_t file_length,
                                uint32_t *with, size_t with_length,
                                uint32_t *without, size_t without_length,
                                uint64_t reply[HIMALOWEN_TOTALS_PLACES]);

/* A site is up to 8 halls on one stock of kits: the plan of each, in the order of admission, as an array of numbers. Any
 * numbers may be handed in. They are a sound site if the stock is at most 2,048, there are at most 8 halls, each plan's rows
 * ascend strictly from 1 to 256, and the kits left and the rows of all plans add up to the stock. What stands in the other
 * places does not matter; a call that is not refused leaves 0 in them. */

/* A site of so many kits and no hall; 12 if they are over 2,048, and then it is the site of stock 0. */
uint32_t himalowen_site_start(uint32_t stock,
                              uint32_t site[HIMALOWEN_SITE_PLACES],
                              uint64_t reply[HIMALOWEN_SITE_REPLY_PLACES]);

/* The site with one hall more: its plan is the rows of himalowen_plan_rows, and each of them takes a kit. 12 if the site is not
 * sound, before the file's refusals; after them 13 if it has 8 halls already, then 14 if the plan has more rows than kits are
 * left. */
uint32_t himalowen_site_admit(const uint8_t *file, size_t file_length,
                              uint32_t site[HIMALOWEN_SITE_PLACES],
                              uint64_t reply[HIMALOWEN_SITE_REPLY_PLACES]);

#ifdef __cplusplus
}
#endif

#endif
