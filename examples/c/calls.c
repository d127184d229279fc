/*
 * Each call of polgamir.h once, by the lines that stand beside it there.
 *
 *     make -C examples/c run
 */
#include <inttypes.h>
#include <stdio.h>
#include <stdlib.h>

#include "polgamir.h"

static int64_t table[POLGAMIR_MOST_CELLS];

/* The calls that take words, of a job from rest at 0 to rest at 1, asked to arrive at tick 4. */
static void plan_words(void)
{
    static const uint32_t words[] = {
        0x10000001, 0x20000004, 0x30000000, 0x40000000, 0x5000000A, 0x60000001,
        0x70000000, 0x80000080, 0x90000001, 0xA0000000, 0xF0000000,
    };
    polgamir_answer answer = polgamir_plan_words(words, 11, table, POLGAMIR_MOST_CELLS);
    printf("words: arrival %" PRIu32 "\n", answer.arrival);

    answer = polgamir_plan_words_backwards(words, 11, table, POLGAMIR_MOST_CELLS);
    printf("backwards: row %" PRIu32 " first\n", answer.arrival);

    polgamir_part_answer two = polgamir_plan_words_part(words, 11, 3, table, 2 * 3);
    printf("part: %" PRIu32 " rows from row 3 on\n", two.rows);

    polgamir_raises none = polgamir_raises_words(words, 11);
    printf("raises: answer %" PRIu32 ", limit %" PRIu32 "\n", none.answer.number, none.axes[0].first.limit);

    polgamir_search_answer one = polgamir_search_words(words, 11, 1, 4096);
    printf("search: arrival %" PRIu32 ", %" PRIu32 " tried\n", one.arrival, one.tried);
}

/* Prints the rows of a table. */
static void show(polgamir_answer answer)
{
    puts(polgamir_refusal_text(answer.number));
    for (uint32_t tick = 0; tick <= answer.arrival; tick++) {
        const int64_t *cells = polgamir_row(table, answer.mask, tick, 0);
        printf("%" PRId64 " %" PRId64 " %" PRId64 "\n", cells[0], cells[1], cells[2]);
    }
}

/* The length of a table, its rows backwards, and its rows in parts. */
static void other_tables(polgamir_job job)
{
    polgamir_answer probe = polgamir_plan_job(job, NULL, 0);
    size_t cells = polgamir_cells_needed(polgamir_axis_count(job.mask), probe.arrival);
    int64_t *exact = malloc(cells * sizeof *exact);
    if (exact != NULL) {
        printf("%zu cells: number %" PRIu32 "\n", cells, polgamir_plan_job(job, exact, cells).number);
    }
    free(exact);

    polgamir_answer answer = polgamir_plan_job_backwards(job, table, POLGAMIR_MOST_CELLS);
    const int64_t *landing = polgamir_row(table, answer.mask, 0, 0);
    printf("lands at %" PRId64 "\n", landing[0]);

    int64_t part[16 * 3];
    uint32_t first = 0;
    polgamir_part_answer some;
    do {
        some = polgamir_plan_job_part(job, first, part, 16 * 3);
        first += some.rows;
    } while (some.rows > 0);
    printf("%" PRIu32 " rows in parts\n", first);
}

/* What to raise, and the arrival by a search with a budget. */
static void other_arrivals(polgamir_job job)
{
    job.asked = 5;
    polgamir_raises raises = polgamir_raises_job(job);
    if (raises.axes[0].first.limit == POLGAMIR_ACCELERATION_LIMIT) {
        printf("raise the acceleration limit by %" PRIu32 "\n", raises.axes[0].first.by);
    }

    polgamir_search_answer found = {.report = POLGAMIR_SPENT, .next = 1};
    while (found.report == POLGAMIR_SPENT) {
        found = polgamir_search_job(job, found.next, 20);
    }
    if (found.report == POLGAMIR_FOUND) {
        job.asked = found.arrival;
    }
    printf("found %" PRIu32 "\n", job.asked);
}

static void plan_tour(void)
{
    polgamir_tour tour = {.mask = 1u << 0};
    tour.limits[0].speed_limit = 10;
    tour.limits[0].acceleration_limit = 1;
    tour.limits[0].second_weight = 128;
    polgamir_stop stops[2] = {{.positions = {6}, .dwell = 5}, {.positions = {-2}}};
    uint32_t arrivals[2];
    polgamir_tour_answer toured = polgamir_plan_tour(tour, stops, 2, arrivals, 2);
    printf("tour: arrivals %" PRIu32 " and %" PRIu32 ", total %" PRIu32 "\n", arrivals[0], arrivals[1], toured.total);
}

/* An old job: at velocity 10 from 0 to a fixed target that is at 10, at velocity 10, at tick 39. */
static void convert(void)
{
    static const uint32_t old[] = {
        0x10000001, 0x20000027, 0x30000000, 0x4000000A, 0x50000014, 0x60000001,
        0x70000000, 0x80000080, 0x9000000A, 0xA000000A, 0xF0000000,
    };
    polgamir_answer answer = polgamir_plan_words(old, 11, table, POLGAMIR_MOST_CELLS);
    puts(polgamir_refusal_text(answer.number));

    uint32_t lent[11 + 12];
    polgamir_answer converted = polgamir_convert(old, 11, lent, 11 + 12);
    if (converted.number == POLGAMIR_ACCEPTED) {
        answer = polgamir_plan_words(lent, (size_t)converted.place, table, POLGAMIR_MOST_CELLS);
    }
    printf("converted: %" PRIu64 " words, arrival %" PRIu32 "\n", converted.place, answer.arrival);
}

int main(void)
{
    if (polgamir_version() != POLGAMIR_VERSION) {
        puts("the library is of another version than the header");
    }
    if (!polgamir_library_fits()) {
        return 1;
    }

    polgamir_job job = {0};
    job.mask = 1u << 0;
    job.axes[0].target_position = 6;
    job.axes[0].speed_limit = 10;
    job.axes[0].acceleration_limit = 1;
    job.axes[0].half_period = 3;
    job.axes[0].damping_kind = POLGAMIR_RATIO;
    job.axes[0].swing_ratio = 0.5f;
    polgamir_answer answer = polgamir_plan_job(job, table, POLGAMIR_MOST_CELLS);
    show(answer);
    other_tables(job);
    other_arrivals(job);
    plan_words();
    plan_tour();
    convert();
    return 0;
}
