/*
 * What is not looked at may hold anything. Each call gets structs of which only the fields that
 * it may look at are set, and answers what cases worked out by hand say. The other bytes are as
 * the argument says: all of this value; with no argument as malloc leaves them, for valgrind,
 * which then tells where an answer or a branch depends on one of them. Prints nothing and
 * returns 0 where all of it holds.
 */
#include <stdbool.h>
#include <stdio.h>
#include <stdlib.h>
#include <string.h>

#include "polgamir.h"

static int failures;
static int filling = -1;                        /* a byte, or as malloc leaves them */
static void *(*volatile lend)(size_t) = malloc; /* the compiler does not see what it gives */

static void expect(bool holds, const char *what, unsigned axis)
{
    if (!holds) {
        fprintf(stderr, "undefined: axis %u: %s\n", axis, what);
        failures++;
    }
}

static void *fresh(size_t size)
{
    void *memory = lend(size);
    if (memory == NULL) {
        abort();
    }
    return filling < 0 ? memory : memset(memory, filling, size);
}

/* ---- jobs of one axis: only what its kinds say is set, and neither the other axes nor
   the windows' fields after `given` */

static void damp(unsigned kind, uint32_t *weight, float *ratio, float *first, float *second)
{
    if (kind == POLGAMIR_WEIGHT) {
        *weight = 128;
    } else if (kind == POLGAMIR_RATIO) {
        *ratio = 1.0f; /* gives 128 */
    } else {
        *first = 3.0f;
        *second = 3.0f;
    }
}

/* From 0 to 1 at rest with L = 10, M = 1 and h = 1: case D. */
static polgamir_job *job_of(unsigned axis, unsigned kind)
{
    polgamir_job *job = fresh(sizeof *job);
    polgamir_axis *x = &job->axes[axis];
    job->mask = 1u << axis;
    job->windows.given = 0;
    x->start_position = 0;
    x->start_velocity = 0;
    x->target_position = 1;
    x->target_velocity = 0;
    x->target_kind = POLGAMIR_FIXED;
    x->speed_limit = 10;
    x->acceleration_limit = 1;
    x->half_period = 1;
    x->damping_kind = kind;
    x->second_sway_given = 0;
    damp(kind, &x->second_weight, &x->swing_ratio, &x->first_peak, &x->second_peak);
    return job;
}

static const int64_t case_d[] = {0, 0, 128, 64, 128, 0, 192, 128, -128, 256, 0, 0};
#define CELLS (sizeof case_d / sizeof case_d[0])

static bool accepted(polgamir_answer answer, unsigned axis, uint32_t arrival)
{
    return answer.number == 0 && answer.place == 0 && answer.mask == 1u << axis && answer.arrival == arrival;
}

/* The rows of case D from the front of a table on, in an order. */
static bool has_rows(const int64_t *table, bool backwards)
{
    for (size_t row = 0; row < CELLS / 3; row++) {
        size_t place = backwards ? CELLS / 3 - 1 - row : row;
        for (size_t cell = 0; cell < 3; cell++) {
            if (table[3 * place + cell] != case_d[3 * row + cell]) {
                return false;
            }
        }
    }
    return true;
}

static bool searched(polgamir_search_answer answer, unsigned axis)
{
    return answer.number == 0 && answer.place == 0 && answer.mask == 1u << axis && answer.arrival == 3
        && answer.report == POLGAMIR_FOUND
           && answer.next == 0 && answer.tried == 3;
}

static bool raised(polgamir_raise raise, uint32_t limit, uint32_t by)
{
    return raise.limit == limit && raise.by == by;
}

/* Every call for a job, with the least arrival; the search does not look at what is asked for. */
static void calls(polgamir_job *job, unsigned axis)
{
    int64_t *table = fresh((CELLS + 3) * sizeof *table);
    expect(searched(polgamir_search_job(*job, 1, 9), axis), "a search", axis);
    job->asked = 0;
    expect(accepted(polgamir_plan_job(*job, table, CELLS + 3), axis, 3) && has_rows(table, false), "a table", axis);
    expect(accepted(polgamir_plan_job_backwards(*job, table, CELLS + 3), axis, 3) && has_rows(table, true),
           "a table backwards", axis);
    polgamir_part_answer part = polgamir_plan_job_part(*job, 0, table, CELLS + 3);
    expect(part.number == 0 && part.arrival == 3 && part.rows == CELLS / 3 && has_rows(table, false),
           "a part of a table", axis);
    polgamir_raises raises = polgamir_raises_job(*job);
    expect(accepted(raises.answer, axis, 3) && raised(raises.axes[axis].first, POLGAMIR_NO_LIMIT, 0), "no raises",
           axis);
    free(table);
}

static void jobs(unsigned axis)
{
    for (unsigned kind = POLGAMIR_WEIGHT; kind <= POLGAMIR_PEAKS; kind++) {
        polgamir_job *job = job_of(axis, kind);
        calls(job, axis);
        job->windows.given = 1; /* one window, and none of the others is set */
        job->windows.dwell = 1;
        job->windows.count = 1;
        job->windows.list[0].opening = 3;
        job->windows.list[0].closing = 4;
        calls(job, axis);
        free(job);
    }
}

/* A count that is refused, with no window set, and no dwell. */
static void counts(unsigned axis)
{
    for (unsigned many = 0; many < 2; many++) {
        polgamir_job *job = job_of(axis, POLGAMIR_WEIGHT);
        job->asked = 0;
        job->windows.given = 1;
        job->windows.count = many ? 33 : 0;
        polgamir_answer answer = polgamir_plan_job(*job, NULL, 0);
        expect(answer.number == 13 && answer.place == (many ? 32 : 0), "a count of windows", axis);
        free(job);
    }
}

/* Of an axis that is asked to be at 9 by tick 6 with L = 2 and M = 1 both raises are 1. */
static void raises(unsigned axis)
{
    polgamir_job *job = job_of(axis, POLGAMIR_WEIGHT);
    job->asked = 6;
    job->axes[axis].target_position = 9;
    job->axes[axis].speed_limit = 2;
    job->axes[axis].half_period = 0;
    polgamir_raises r = polgamir_raises_job(*job);
    expect(r.answer.number == 8 && r.answer.mask == 1u << axis, "an arrival that is turned down", axis);
    for (unsigned other = 0; other < POLGAMIR_AXES; other++) {
        bool named = other == axis;
        expect(raised(r.axes[other].first, named ? POLGAMIR_ACCELERATION_LIMIT : POLGAMIR_NO_LIMIT, named)
                   && raised(r.axes[other].second, named ? POLGAMIR_SPEED_LIMIT : POLGAMIR_NO_LIMIT, named),
               "raises", other);
    }
    free(job);
}

/* ---- tours: of other axes neither start nor limits nor positions are set; with no stops nothing
   is */

static polgamir_tour *tour_of(unsigned axis, unsigned kind)
{
    polgamir_tour *tour = fresh(sizeof *tour);
    polgamir_limits *l = &tour->limits[axis];
    tour->mask = 1u << axis;
    tour->start[axis] = 0;
    l->speed_limit = 10;
    l->acceleration_limit = 1;
    l->half_period = 1;
    l->damping_kind = kind;
    l->second_sway_given = 0;
    damp(kind, &l->second_weight, &l->swing_ratio, &l->first_peak, &l->second_peak);
    return tour;
}

/* To 1, for 5 ticks, and back to 0: each leg takes 3 ticks, as case D does. */
static void tours(unsigned axis)
{
    for (unsigned kind = POLGAMIR_WEIGHT; kind <= POLGAMIR_PEAKS; kind++) {
        polgamir_tour *tour = tour_of(axis, kind);
        polgamir_stop *stops = fresh(2 * sizeof *stops);
        uint32_t *arrivals = fresh(3 * sizeof *arrivals);
        stops[0].positions[axis] = 1;
        stops[0].dwell = 5;
        stops[1].positions[axis] = 0;
        stops[1].dwell = 0;
        polgamir_tour_answer r = polgamir_plan_tour(*tour, stops, 2, arrivals, 3);
        expect(r.number == 0 && r.place == 0 && r.mask == 1u << axis && r.arrival == 0 && r.total == 11, "a tour",
               axis);
        expect(arrivals[0] == 3 && arrivals[1] == 11, "its arrivals", axis);
        free(arrivals);
        free(stops);
        free(tour);
    }
}

static void few_and_many_stops(void)
{
    polgamir_tour *tour = fresh(sizeof *tour);
    uint32_t *arrivals = fresh(sizeof *arrivals);
    polgamir_tour_answer r = polgamir_plan_tour(*tour, NULL, 0, arrivals, 1);
    expect(r.number == 0 && r.place == 0 && r.mask == 0 && r.arrival == 0 && r.total == 0, "no stops", 0);
    free(tour);
    tour = tour_of(0, POLGAMIR_WEIGHT);
    polgamir_stop *stops = fresh(65 * sizeof *stops);
    r = polgamir_plan_tour(*tour, stops, 65, arrivals, 1);
    expect(r.number == 11 && r.place == 64 && r.mask == 0 && r.arrival == 0 && r.total == 0, "65 stops", 0);
    free(stops);
    free(arrivals);
    free(tour);
}

/* ---- words: just so many are lent, and what is lent to be written is not set */

static void words(void)
{
    static const uint32_t d[] = {0x10000001, 0x20000000, 0x30000000, 0x40000000, 0x5000000A, 0x60000001,
                                 0x70000001, 0x80000080, 0x90000001, 0xA0000000, 0xF0000000};
    size_t count = sizeof d / sizeof d[0];
    uint32_t *lent = fresh(sizeof d);
    uint32_t *converted = fresh(sizeof d);
    int64_t *table = fresh(sizeof case_d);
    memcpy(lent, d, sizeof d);
    expect(accepted(polgamir_plan_words(lent, count, table, CELLS), 0, 3) && has_rows(table, false), "a table of words",
           0);
    expect(accepted(polgamir_plan_words_backwards(lent, count, table, CELLS), 0, 3) && has_rows(table, true),
           "backwards", 0);
    polgamir_part_answer part = polgamir_plan_words_part(lent, count, 0, table, CELLS);
    expect(part.number == 0 && part.arrival == 3 && part.rows == CELLS / 3 && has_rows(table, false), "a part", 0);
    expect(searched(polgamir_search_words(lent, count, 1, 9), 0), "a search of words", 0);
    expect(accepted(polgamir_raises_words(lent, count).answer, 0, 3), "raises of words", 0);
    polgamir_answer answer = polgamir_convert(lent, count, converted, count);
    expect(answer.number == 0 && answer.place == count && memcmp(converted, d, sizeof d) == 0, "a conversion", 0);
    answer = polgamir_plan_words(lent, count - 1, table, CELLS);
    expect(answer.number == 2 && answer.place == count - 1, "words that are lacking", 0);
    free(table);
    free(converted);
    free(lent);
}

int main(int argc, char **argv)
{
    if (argc > 1) {
        filling = atoi(argv[1]);
    }
    for (unsigned axis = 0; axis < POLGAMIR_AXES; axis++) {
        jobs(axis);
        counts(axis);
        raises(axis);
        tours(axis);
    }
    few_and_many_stops();
    words();
    return failures == 0 ? 0 : 1;
}
