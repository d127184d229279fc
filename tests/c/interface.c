/*
 * include/polgamir.h and the library that it is linked with: every field is where the library
 * reads it, a null pointer with count 0 will do, the numbers have their texts, and both have
 * one version. The answers that are asked for stand in the header's list of refusals. Prints
 * nothing and returns 0 where all of it holds.
 */
#include <inttypes.h>
#include <stdbool.h>
#include <stdio.h>
#include <string.h>

#include "layout.h" /* of bindings/c: every offset, asserted */
#include "polgamir.h"

_Static_assert(POLGAMIR_MOST_CELLS == 3 * POLGAMIR_AXES * (POLGAMIR_LATEST_ARRIVAL + 1), "POLGAMIR_MOST_CELLS");

/* ---- what is asked for */

static int failures;

static void expect(bool holds, const char *what, unsigned axis)
{
    if (!holds) {
        fprintf(stderr, "axis %u: %s\n", axis, what);
        failures++;
    }
}

/* The answer has this number, place and mask. */
static bool is(polgamir_answer answer, uint32_t number, uint64_t place, uint32_t mask)
{
    return answer.number == number && answer.place == place && answer.mask == mask;
}

#define CELLS 3000
static int64_t table[CELLS];

/*
 * A job of one axis, no two values of which are the same; what its other axes hold, and its
 * windows, which are not given, is of no effect. It lands at tick 300.
 */
static polgamir_job distinct(unsigned axis)
{
    polgamir_job job;
    memset(&job, 0x81, sizeof job);
    job.mask = 1u << axis;
    job.asked = 300;
    job.windows.given = 0;
    job.axes[axis] = (polgamir_axis){
        .start_position = -701,
        .start_velocity = 11,
        .target_position = 902,
        .target_velocity = -13,
        .target_acceleration = 0,
        .target_tick = 287,
        .target_kind = POLGAMIR_MOVING,
        .speed_limit = 5003,
        .acceleration_limit = 207,
        .half_period = 17,
        .second_weight = 97,
    };
    return job;
}

/* The job is refused with this number, for this axis where the number names one. */
static void refused(const char *what, unsigned axis, polgamir_job job, uint32_t number)
{
    bool names_axis = (number >= 4 && number <= 6) || number == 12 || (number >= 15 && number <= 17);
    uint32_t mask = number == 8 ? 1u << axis : 0;
    memset(table, 0x55, sizeof table);
    expect(is(polgamir_plan_job(job, table, CELLS), number, names_axis ? axis : number == 3, mask), what, axis);
    for (size_t cell = 0; cell < CELLS; cell++) {
        expect(table[cell] == 0x5555555555555555, "a refused call writes no cell", axis);
    }
}

static bool accepted(polgamir_job job)
{
    return polgamir_plan_job(job, table, CELLS).number == 0;
}

/* On a damped pole as on an undamped one the last row is that of a target which accelerates by
   3. */
static void lands_beside(unsigned axis, polgamir_job job)
{
    expect(accepted(job) && table[3 * 300 + 2] == 256 * 3, "an accelerating target", axis);
    expect(table[3 * 300 + 1] == 256 * (-13 + 3 * 13), "an accelerating target's velocity", axis);
    expect(table[3 * 300] == 256 * (902 - 13 * 13) + 128 * 3 * 13 * 13, "an accelerating target's position", axis);
}

/* Row 0 is the start, row 300 the target 13 ticks after its own tick, as an accepted call writes
   them. */
static void reads_the_ends(unsigned axis)
{
    polgamir_job job = distinct(axis);
    memset(table, 0x55, sizeof table);
    polgamir_answer answer = polgamir_plan_job(job, table, CELLS);
    expect(is(answer, 0, 0, 1u << axis) && answer.arrival == 300, "accepted", axis);
    expect(table[0] == 256 * -701, "start position", axis);
    expect(table[1] == 256 * 11, "start velocity", axis);
    expect(table[3 * 300] == 256 * (902 - 13 * 13), "target position and tick", axis);
    expect(table[3 * 300 + 1] == 256 * -13, "target velocity", axis);
    expect(table[3 * 300 + 2] == 0, "target acceleration", axis);
    expect(table[3 * 301] == 0x5555555555555555, "no cell after the last row", axis);
    job.axes[axis].target_kind = POLGAMIR_FIXED;
    refused("a fixed target with a velocity", axis, job, 17);
    job.axes[axis].target_velocity = 0;
    expect(accepted(job) && table[3 * 300] == 256 * 902, "a fixed target has no tick", axis);
    job = distinct(axis);
    job.axes[axis].target_acceleration = 3;
    lands_beside(axis, job);
    job.axes[axis].second_weight = 128;
    lands_beside(axis, job);
}

/* One field at a time is taken past its range, by the names of the fields: the refusal
   list says which number it gets. */
static void reads_the_limits(unsigned axis)
{
#define WITH(field, value, number)                                                  \
    do {                                                                            \
        polgamir_job changed = distinct(axis);                                      \
        changed.axes[axis].field = (value);                                         \
        refused(#field " = " #value, axis, changed, number);                        \
    } while (0)
    WITH(speed_limit, 0, 4);
    WITH(speed_limit, 1048577, 4);
    WITH(acceleration_limit, 0, 4);
    WITH(acceleration_limit, 65537, 4);
    WITH(half_period, 257, 5);
    WITH(second_weight, 0, 5);
    WITH(second_weight, 129, 5);
    WITH(start_position, 17179869184, 6);
    WITH(start_velocity, 5004, 6);
    WITH(start_velocity, -5004, 6);
    WITH(target_position, -17179869185, 6);
    WITH(target_velocity, 5004, 6);
    WITH(target_acceleration, 208, 6);
    WITH(target_tick, 4097, 6);
    WITH(target_tick, -4097, 6);
#undef WITH
    polgamir_job job = distinct(axis);
    job.asked = 4097;
    refused("asked = 4097", axis, job, 3);
    job.asked = 17; /* the half period: an arrival is later */
    refused("asked = half_period", axis, job, 8);
    job.mask = 1u << (axis + 6);
    refused("mask", axis, job, 1);
    job = distinct(axis);
    job.axes[axis].target_acceleration = 208;
    job.axes[axis].target_tick = 4097;
    job.axes[axis].target_velocity = 0;
    job.axes[axis].target_kind = POLGAMIR_FIXED;
    expect(accepted(job), "a fixed target's acceleration and tick are not looked at", axis);
}

/* The job with its damping as measured has the table that it has with this weight,
   whatever its other fields hold. */
static void weighs(const char *what, unsigned axis, uint32_t kind, float ratio, float first, float second,
                   uint32_t weight)
{
    static int64_t by_weight[CELLS];
    polgamir_job job = distinct(axis);
    job.axes[axis].second_weight = weight;
    memset(table, 0x55, sizeof table);
    expect(accepted(job), what, axis);
    memcpy(by_weight, table, sizeof table);
    job.axes[axis].damping_kind = kind;
    job.axes[axis].second_weight = 0;
    job.axes[axis].swing_ratio = ratio;
    job.axes[axis].first_peak = first;
    job.axes[axis].second_peak = second;
    memset(table, 0x55, sizeof table);
    expect(accepted(job) && memcmp(table, by_weight, sizeof table) == 0, what, axis);
}

/* The weights and refusals are those that the header names, and peaks for which the roundings
   tell. */
static void reads_the_damping(unsigned axis)
{
    float no_number = 0.0f / 0.0f;
    weighs("ratio 1", axis, POLGAMIR_RATIO, 1.0f, 0.0f, no_number, 128);
    weighs("ratio 0.5", axis, POLGAMIR_RATIO, 0.5f, -1.0f, 0.0f, 85);
    weighs("peaks 97 and 31", axis, POLGAMIR_PEAKS, no_number, 97.0f, 31.0f, 61);
    weighs("a kind above 2", axis, UINT32_MAX, 0.0f, 155.0f, 101.0f, 100);
    static const float wrong[][3] = {{0.0f, 0.0f, 1.0f}, {-0.5f, -2.0f, -1.0f}, {1.5f, 2.0f, 3.0f}};
    for (size_t i = 0; i < sizeof wrong / sizeof wrong[0]; i++) {
        polgamir_job job = distinct(axis);
        job.axes[axis].swing_ratio = wrong[i][0];
        job.axes[axis].first_peak = wrong[i][1];
        job.axes[axis].second_peak = wrong[i][2];
        expect(accepted(job), "a ratio and peaks are not looked at where a weight is given", axis);
        job.axes[axis].damping_kind = POLGAMIR_RATIO;
        refused("a ratio outside its range", axis, job, 12);
        job.axes[axis].damping_kind = POLGAMIR_PEAKS;
        refused("peaks outside their range", axis, job, 12);
    }
}

/* A second half period is read where it is given, by any number but 0, and nowhere
   else; start and target stay exact. */
static void reads_the_second_sway(unsigned axis)
{
    polgamir_job job = distinct(axis);
    job.axes[axis].second_half_period = 257;
    expect(accepted(job), "a second half period that is not given is not looked at", axis);
    job.axes[axis].second_sway_given = UINT32_MAX;
    refused("second_half_period = 257", axis, job, 15);
    job.axes[axis].second_half_period = 0;
    refused("second_half_period = 0", axis, job, 15);
    job.axes[axis].second_half_period = 13;
    expect(accepted(job) && table[0] == 256 * -701 && table[1] == 256 * 11, "the start of a second sway", axis);
    expect(table[3 * 300] == 256 * (902 - 13 * 13) && table[3 * 300 + 1] == 256 * -13, "the landing of a second sway",
           axis);
    job.asked = 30; /* both half periods: an arrival is later */
    refused("asked = half_period + second_half_period", axis, job, 8);
    job.axes[axis].target_acceleration = 1;
    refused("an accelerating target on a second sway", axis, job, 16);

    polgamir_job small = {.mask = 1u << axis};
    small.axes[axis] = (polgamir_axis){
        .target_position = 1, .speed_limit = 10, .acceleration_limit = 1, .half_period = 1, .second_weight = 100,
        .second_sway_given = 1, .second_half_period = 2,
    };
    static const int64_t rows[] = {0, 0, 78, 39, 78, -28, 103, 50, 28, 167, 78, -28, 231, 50, -50, 256, 0, 0};
    polgamir_answer answer = polgamir_plan_job(small, table, CELLS);
    expect(is(answer, 0, 0, 1u << axis) && answer.arrival == 5, "the arrival of a second sway", axis);
    expect(memcmp(table, rows, sizeof rows) == 0, "the rows of a second sway", axis);
}

/* The word of kind 13 stands after that of kind 8: its rows are those of the typed call,
   and a payload of 0 is refused. */
static void reads_words_of_kind_13(void)
{
    uint32_t words[] = {
        0x10000001, 0x20000000, 0x30000000, 0x40000000, 0x5000000A, 0x60000001,
        0x70000001, 0x80000064, 0xD0000002, 0x90000001, 0xA0000000, 0xF0000000,
    };
    polgamir_answer answer = polgamir_plan_words(words, sizeof words / sizeof words[0], table, CELLS);
    expect(is(answer, 0, 0, 1) && answer.arrival == 5 && table[3] == 39, "a word of kind 13", 0);
    words[8] = 0xD0000000;
    expect(is(polgamir_plan_words(words, sizeof words / sizeof words[0], table, CELLS), 15, 0, 0),
           "kind 13 with payload 0", 0);
    words[7] = 0xD0000002;
    words[8] = 0x80000064;
    expect(is(polgamir_plan_words(words, sizeof words / sizeof words[0], table, CELLS), 2, 7, 0),
           "kind 13 before kind 8", 0);
}

/* Field case F asked 39 and 2 as old words: 13 converted ones, which arrive at 39; nothing is
   written where they do not fit. */
static void converts(void)
{
    uint32_t words[] = {
        0x10000001, 0x20000027, 0x30000000, 0x4000000A, 0x50000014, 0x60000001,
        0x70000000, 0x80000080, 0x9000000A, 0xA000000A, 0xF0000000,
    };
    const size_t count = sizeof words / sizeof words[0];
    uint32_t lent[14] = {[13] = 7};
    polgamir_answer answer = polgamir_convert(words, count, lent, 14);
    expect(is(answer, 0, 13, 0) && answer.arrival == 0, "a conversion", 0);
    expect(memcmp(lent, words, 40) == 0 && lent[10] == 0xB0000000 && lent[11] == 0xC0000027 && lent[12] == 0xF0000000,
           "the converted words", 0);
    expect(lent[13] == 7, "later words stay", 0);
    answer = polgamir_plan_words(lent, 13, table, CELLS);
    expect(is(answer, 0, 0, 1) && answer.arrival == 39 && table[117] == 2560, "a converted job is planned", 0);
    expect(is(polgamir_plan_words(words, count, table, CELLS), 17, 0, 0), "the old job is not", 0);
    words[1] = 0x20000002;
    lent[0] = 7;
    expect(is(polgamir_convert(words, count, lent, 12), 10, 13, 0) && lent[0] == 7, "too few words", 0);
    words[1] = 0x20000000;
    expect(is(polgamir_convert(words, count, NULL, 0), 17, 0, 0), "the least arrival has no conversion", 0);
    expect(is(polgamir_convert(NULL, 0, NULL, 0), 1, 0, 0), "no words to convert", 0);
}

/* From arrival backwards: the forward call's rows, the last one first, and the
   cells after them as they were. */
static void rows_backwards(unsigned axis)
{
    static int64_t forwards[CELLS];
    polgamir_job job = distinct(axis);
    memset(table, 0x55, sizeof table);
    expect(accepted(job), "forwards", axis);
    memcpy(forwards, table, sizeof table);
    memset(table, 0x55, sizeof table);
    polgamir_answer answer = polgamir_plan_job_backwards(job, table, CELLS);
    expect(is(answer, 0, 0, 1u << axis) && answer.arrival == 300, "the same answer backwards", axis);
    for (size_t tick = 0; tick <= 300; tick++) {
        expect(memcmp(table + 3 * (300 - tick), forwards + 3 * tick, 3 * sizeof *table) == 0, "a row backwards", axis);
    }
    expect(memcmp(table + 3 * 301, forwards + 3 * 301, sizeof table - 3 * 301 * sizeof *table) == 0,
           "no cell after row 0", axis);
    expect(is(polgamir_plan_job_backwards(job, table, 3 * 301 - 1), 10, 0, 0), "a table that is too short backwards",
           axis);
}

/* A null pointer with count 0: no words, no cells, and neither. */
static void takes_null(void)
{
    expect(is(polgamir_plan_words(NULL, 0, table, CELLS), 1, 0, 0), "no words", 0);
    expect(is(polgamir_plan_words(NULL, 0, NULL, 0), 1, 0, 0), "no words and no cells", 0);
    static const uint32_t words[] = {
        0x10000001, 0x20000004, 0x30000000, 0x40000000, 0x5000000A, 0x60000001,
        0x70000000, 0x80000080, 0x90000001, 0xA0000000, 0xF0000000,
    };
    polgamir_answer answer = polgamir_plan_words(words, sizeof words / sizeof words[0], NULL, 0);
    expect(is(answer, 10, 0, 0) && answer.arrival == 4, "words and no cells", 0);
    answer = polgamir_plan_words_backwards(words, sizeof words / sizeof words[0], NULL, 0);
    expect(is(answer, 10, 0, 0) && answer.arrival == 4, "words and no cells backwards", 0);
    expect(is(polgamir_plan_words_backwards(NULL, 0, NULL, 0), 1, 0, 0), "no words and no cells backwards", 0);
    for (unsigned axis = 0; axis < POLGAMIR_AXES; axis++) {
        answer = polgamir_plan_job(distinct(axis), NULL, 0);
        expect(is(answer, 10, 0, 0) && answer.arrival == 300, "a job and no cells", axis);
    }
    polgamir_job empty = {0};
    expect(is(polgamir_plan_job(empty, NULL, 0), 1, 0, 0), "a job with no axis", 0);
}

/* The payload of kind 14 and the low one of a position, the position in units where they
   spell one, and else 14 at word 2. */
static void reads_long_positions(void)
{
    static const struct {
        uint32_t high, low;
        int64_t position;
        bool spelled;
    } cases[] = {
        {0, 0x08000000, 134217728, true},        {0, 0x07FFFFFF, 0, false},  {0x0FFFFFFF, 0x07FFFFFF, -134217729, true},
        {0x0FFFFFFF, 0x08000000, 0, false},      {64, 0, 0, false},          {0x0FFFFFFF - 64, 0, 0, false},
        {63, 0x0FFFFFFF, 17179869183, true},     {0x0FFFFFFF - 63, 0, -17179869184, true},
    };
    for (unsigned i = 0; i < sizeof cases / sizeof cases[0]; i++) {
        uint32_t high = 0xE0000000 | cases[i].high;
        const uint32_t words[] = {
            0x10000001, 0x20000000, high, 0x30000000 | cases[i].low, 0x40000000, 0x5000000A, 0x60000001,
            0x70000000, 0x80000080, high, 0x90000000 | cases[i].low, 0xA0000000, 0xF0000000,
        };
        polgamir_answer answer = polgamir_plan_words(words, sizeof words / sizeof words[0], table, CELLS);
        if (cases[i].spelled) {
            expect(is(answer, 0, 0, 1) && answer.arrival == 1, "a long position", i);
            expect(table[0] == 256 * cases[i].position && table[3] == table[0], "a long position's cells", i);
        } else {
            expect(is(answer, 14, 2, 0) && answer.arrival == 0, "a position that is wrongly spelled", i);
        }
    }
}

/* Every number has a text of its own; 7 is not used, and has that of a number above the last. */
static void has_texts(void)
{
    const uint32_t above = POLGAMIR_REFUSED_FIRST_CANDIDATE + 1;
    for (uint32_t number = 0; number <= above; number++) {
        for (uint32_t other = 0; other < number; other++) {
            bool unused = other == 7 && number == above;
            bool same = strcmp(polgamir_refusal_text(number), polgamir_refusal_text(other)) == 0;
            expect(same == unused, "two numbers with one text", other);
        }
    }
    expect(polgamir_refusal_text(above) == polgamir_refusal_text(UINT32_MAX), "a number above the last", 0);
}

/* A tour of one axis, whose legs and refusals are worked out by hand: from 0, with L = 10, M = 1
   and no blend, 4 units take 4 ticks. */
static void tours(unsigned axis)
{
    polgamir_tour tour = {.mask = 1u << axis};
    tour.limits[axis] = (polgamir_limits){.speed_limit = 10, .acceleration_limit = 1, .half_period = 0,
                                          .second_weight = 128};
    polgamir_stop stops[3] = {{.dwell = 3}, {.dwell = 5}, {.dwell = 4097}};
    stops[0].positions[axis] = 4;
    uint32_t list[3] = {7, 7, 7};
    polgamir_tour_answer answer = polgamir_plan_tour(tour, stops, 2, list, 3);
    expect(answer.number == 0 && answer.place == 0 && answer.mask == 1u << axis && answer.total == 16, "a tour's total",
           axis);
    expect(list[0] == 4 && list[1] == 11 && list[2] == 7, "a tour's arrivals; later entries stay", axis);
    answer = polgamir_plan_tour(tour, stops, 2, list, 1);
    expect(answer.number == 10 && answer.place == 2 && answer.mask == 0, "a list that is too short", axis);
    answer = polgamir_plan_tour(tour, stops, 3, list, 3);
    expect(answer.number == 11 && answer.place == 2, "a dwell that is too long", axis);
    tour.start[axis] = 4;
    answer = polgamir_plan_tour(tour, stops, 1, list, 3);
    expect(answer.number == 0 && list[0] == 1, "a leg of no way takes a tick", axis);
    tour.limits[axis].half_period = 257;
    answer = polgamir_plan_tour(tour, stops, 1, list, 3);
    expect(answer.number == 5 && answer.place == 0, "a leg's own refusal, with the stop as place", axis);
    tour.limits[axis].half_period = 1;
    tour.limits[axis].damping_kind = POLGAMIR_PEAKS;
    tour.limits[axis].first_peak = 97;
    tour.limits[axis].second_peak = -31;
    answer = polgamir_plan_tour(tour, stops, 1, list, 3);
    expect(answer.number == 12 && answer.place == 0, "peaks of a tour, one of them below 0", axis);
    tour.limits[axis].second_peak = 31;
    answer = polgamir_plan_tour(tour, stops, 1, list, 3);
    expect(answer.number == 0 && list[0] == 2, "peaks of a tour", axis);
    tour.limits[axis].second_half_period = 3;
    answer = polgamir_plan_tour(tour, stops, 1, list, 3);
    expect(answer.number == 0 && list[0] == 2, "a tour's second half period that is not given", axis);
    tour.limits[axis].second_sway_given = 1;
    answer = polgamir_plan_tour(tour, stops, 1, list, 3);
    expect(answer.number == 0 && list[0] == 5, "a tour's second half period", axis);
    tour.limits[axis].second_half_period = 0;
    answer = polgamir_plan_tour(tour, stops, 1, list, 3);
    expect(answer.number == 15 && answer.place == 0, "a tour's second half period of 0", axis);
    answer = polgamir_plan_tour(tour, NULL, 0, NULL, 0);
    expect(answer.number == 0 && answer.mask == 0 && answer.total == 0, "a tour of no stops", axis);
}

/* Windows: one axis from 0 to 4 with L = 10, M = 1 and no blend, which alone arrives at tick 4. */
static void windows(unsigned axis)
{
    polgamir_job job = {.mask = 1u << axis};
    job.axes[axis] = (polgamir_axis){.target_position = 4, .speed_limit = 10, .acceleration_limit = 1,
                                     .second_weight = 128};
    job.windows = (polgamir_windows){.given = 0, .dwell = 5000, .count = 0};
    expect(polgamir_plan_job(job, table, CELLS).arrival == 4, "windows that are not given", axis);
    job.windows = (polgamir_windows){.given = 1, .dwell = 2, .count = 2, .list = {{0, 5}, {5, 9}}};
    expect(polgamir_plan_job(job, table, CELLS).arrival == 5, "touching windows do not join", axis);
    job.windows.count = 1;
    expect(is(polgamir_plan_job(job, table, CELLS), 9, 0, 0), "no window holds arrival and dwell", axis);
    job.asked = 4;
    expect(is(polgamir_plan_job(job, table, CELLS), 8, 0, 0), "an asked arrival outside the window", axis);
    job.windows.count = 0;
    expect(is(polgamir_plan_job(job, table, CELLS), 13, 0, 0), "an empty list", axis);
    job.windows.count = 33;
    expect(is(polgamir_plan_job(job, table, CELLS), 13, 32, 0), "more than 32 windows", axis);
    job.windows = (polgamir_windows){.given = 1, .count = 2, .list = {{0, 5}, {4, 9}}};
    expect(is(polgamir_plan_job(job, table, CELLS), 13, 1, 0), "a window that opens before the one before it closes",
           axis);
}

static bool raised(polgamir_raise raise, uint32_t limit, uint32_t by)
{
    return raise.limit == limit && raise.by == by;
}

/* Raises, worked out by hand: the entries are those of one axis, every other entry is none. */
static void raises(unsigned axis)
{
    polgamir_job job = {.mask = 1u << axis, .asked = 6};
    job.axes[axis] = (polgamir_axis){.target_position = 9, .speed_limit = 2, .acceleration_limit = 1,
                                     .second_weight = 128};
    polgamir_raises r = polgamir_raises_job(job);
    expect(is(r.answer, 8, 0, 1u << axis) && r.answer.arrival == 0, "an arrival that is turned down", axis);
    expect(raised(r.axes[axis].first, POLGAMIR_ACCELERATION_LIMIT, 1)
           && raised(r.axes[axis].second, POLGAMIR_SPEED_LIMIT, 1),
           "equal raises, that of M first", axis);
    for (unsigned other = 0; other < POLGAMIR_AXES; other++) {
        bool none = raised(r.axes[other].first, POLGAMIR_NO_LIMIT, 0)
            && raised(r.axes[other].second, POLGAMIR_NO_LIMIT, 0);
        expect(none == (other != axis), "an axis that is not named", other);
    }
    job.asked = 8;
    job.axes[axis].start_velocity = 2;
    job.axes[axis].target_position = 22;
    job.axes[axis].speed_limit = 3;
    r = polgamir_raises_job(job);
    expect(raised(r.axes[axis].first, POLGAMIR_SPEED_LIMIT, 1)
           && raised(r.axes[axis].second, POLGAMIR_ACCELERATION_LIMIT, 2),
           "the smaller raise first", axis);
    job.axes[axis].speed_limit = 4;
    r = polgamir_raises_job(job);
    expect(is(r.answer, 0, 0, 1u << axis) && r.answer.arrival == 8, "an accepted job, with no table lent", axis);
    expect(raised(r.axes[axis].first, POLGAMIR_NO_LIMIT, 0), "an accepted job has no raise", axis);
    expect(is(polgamir_raises_words(NULL, 0).answer, 1, 0, 0), "the raises of no words", axis);
}

/* A search that is not refused has this report, tick and number tried; a tick
   that is not the report's own is 0. */
static bool reports(polgamir_search_answer answer, unsigned axis, uint32_t report, uint32_t tick, uint32_t tried)
{
    uint32_t found = report == POLGAMIR_FOUND ? tick : 0;
    uint32_t next = report == POLGAMIR_SPENT ? tick : 0;
    return answer.number == 0 && answer.place == 0 && answer.mask == 1u << axis && answer.report == report
        && answer.arrival == found
           && answer.next == next && answer.tried == tried;
}

/* A refused search has nothing but its number and its place. */
static bool turned_down(polgamir_search_answer answer, uint32_t number, uint64_t place)
{
    return answer.number == number && answer.place == place && answer.mask == 0 && answer.arrival == 0
        && answer.report == POLGAMIR_NONE
           && answer.next == 0 && answer.tried == 0;
}

/* Searches of one axis from 0 to 4 with L = 10, M = 1 and no blend, which
   reaches tick 4 and every later one. */
static void searches(unsigned axis)
{
    polgamir_job job;
    memset(&job, 0x81, sizeof job);
    job.mask = 1u << axis;
    job.windows.given = 0;
    job.axes[axis] = (polgamir_axis){.target_position = 4, .speed_limit = 10, .acceleration_limit = 1,
                                     .second_weight = 128};
    expect(reports(polgamir_search_job(job, 1, 4096), axis, POLGAMIR_FOUND, 4, 4), "found, whatever is asked for",
           axis);
    expect(reports(polgamir_search_job(job, 1, 3), axis, POLGAMIR_SPENT, 4, 3), "spent", axis);
    expect(reports(polgamir_search_job(job, 4, 1), axis, POLGAMIR_FOUND, 4, 1), "gone on with", axis);
    expect(reports(polgamir_search_job(job, 4, 0), axis, POLGAMIR_SPENT, 4, 0), "budget 0", axis);
    expect(reports(polgamir_search_job(job, 4096, UINT32_MAX), axis, POLGAMIR_FOUND, 4096, 1), "the greatest budget",
           axis);
    expect(reports(polgamir_search_job(job, 4097, UINT32_MAX), axis, POLGAMIR_NONE, 0, 0), "no candidate", axis);
    expect(turned_down(polgamir_search_job(job, 0, 9), 18, 0), "first candidate 0", axis);
    expect(turned_down(polgamir_search_job(job, 4098, 9), 18, 0), "first candidate 4,098", axis);
    job.windows = (polgamir_windows){.given = 1, .dwell = 0, .count = 1, .list = {{7, 9}}};
    expect(reports(polgamir_search_job(job, 1, 6), axis, POLGAMIR_SPENT, 7, 6), "ticks outside windows are tried",
           axis);
    expect(reports(polgamir_search_job(job, 1, 7), axis, POLGAMIR_FOUND, 7, 7), "found in a window", axis);
    expect(reports(polgamir_search_job(job, 4096, 1), axis, POLGAMIR_NONE, 0, 1), "a budget that just covers the rest",
           axis);
    job.windows.count = 0;
    expect(turned_down(polgamir_search_job(job, 0, 9), 13, 0), "13 before 18", axis);
    job.axes[axis].half_period = 257;
    expect(turned_down(polgamir_search_job(job, 0, 9), 5, axis), "5 before 13", axis);
    static const uint32_t words[] = {
        0x10000001, 0x20000004, 0x30000000, 0x40000000, 0x5000000A, 0x60000001,
        0x70000000, 0x80000080, 0x90000001, 0xA0000000, 0xF0000000,
    };
    size_t count = sizeof words / sizeof words[0];
    expect(reports(polgamir_search_words(words, count, 1, 9), 0, POLGAMIR_FOUND, 2, 2), "a search from words", axis);
    expect(turned_down(polgamir_search_words(words, count - 1, 0, 9), 2, count - 1), "2 before 18", axis);
    expect(turned_down(polgamir_search_words(NULL, 0, 0, 9), 1, 0), "no words to search for", axis);
}

/* Cells, rows and axes as the header counts them: row k of the j-th set bit
   begins at cell 3 * (axes * k + j). */
static void counts_cells(void)
{
    static const int64_t table[POLGAMIR_MOST_CELLS];
    expect(polgamir_cells_needed(6, 4096) == POLGAMIR_MOST_CELLS, "the largest table", 0);
    expect(polgamir_cells_needed(1, 0) == 3, "one row", 0);
    expect(polgamir_cells_needed(0, 9) == 0, "no axis", 0);
    expect(polgamir_axis_count(0xFFFFFFC0) == 0, "bits above 5", 0);
    for (uint32_t mask = 0; mask < 64; mask++) {
        uint32_t axes = 0;
        for (uint32_t axis = 0; axis < 32; axis++) {
            axes += axis < POLGAMIR_AXES && (mask >> axis & 1) == 1;
        }
        expect(polgamir_axis_count(mask) == axes, "the number of axes", mask);
        for (uint32_t place = 0, j = 0; place < 3; place++, j = 0) {
            for (uint32_t axis = 0; axis < 8; axis++) {
                const int64_t *row = polgamir_row(table, mask, place, axis);
                if (axis < POLGAMIR_AXES && (mask >> axis & 1) == 1) {
                    expect(row == table + 3 * (axes * place + j++), "a row", mask);
                } else {
                    expect(row == NULL, "an axis that is not there", mask);
                }
            }
        }
    }
    expect(polgamir_row(table, 63, 4096, 5) == table + POLGAMIR_MOST_CELLS - 3, "the last row", 63);
}

int main(void)
{
    counts_cells();
    expect(polgamir_library_fits() == 1, "the library fits the header", 0);
    expect(polgamir_version() == POLGAMIR_VERSION, "the library's version is the header's", 0);
    for (unsigned axis = 0; axis < POLGAMIR_AXES; axis++) {
        reads_the_ends(axis);
        reads_the_limits(axis);
        tours(axis);
        windows(axis);
        raises(axis);
        searches(axis);
        reads_the_damping(axis);
        reads_the_second_sway(axis);
        rows_backwards(axis);
    }
    takes_null();
    reads_long_positions();
    reads_words_of_kind_13();
    converts();
    has_texts();
    return failures == 0 ? 0 : 1;
}
