/*
 * Plans a job of two axes and walks the rows of its table, then shows a refusal and what to raise,
 * an arrival in a window, one on a pole with a joint, the same calls from job words, rows from
 * arrival backwards, and a tour of two stops.
 *
 *     make -C examples/c run
 */
#include <inttypes.h>
#include <stdio.h>

#include "polgamir.h"

#define CELLS 256

/* Prints the rows of an accepted job, in fine steps, or the refusal. */
static void show(polgamir_answer answer, const int64_t *table)
{
    if (answer.number != POLGAMIR_ACCEPTED) {
        printf("refused %" PRIu32 " place %" PRIu64 " axes %" PRIu32 " arrival %" PRIu32 ": %s\n", answer.number,
               answer.place,
               answer.mask, answer.arrival, polgamir_refusal_text(answer.number));
        return;
    }
    printf("arrival %" PRIu32 "\n", answer.arrival);
    for (uint32_t tick = 0; tick <= answer.arrival; tick++) {
        printf("tick %2" PRIu32, tick);
        for (uint32_t axis = 0; axis < POLGAMIR_AXES; axis++) {
            const int64_t *cells = polgamir_row(table, answer.mask, tick, axis);
            if (cells != NULL) {
                printf("  | %6" PRId64 " %5" PRId64 " %5" PRId64, cells[0], cells[1], cells[2]);
            }
        }
        printf("\n");
    }
}

int main(void)
{
    /* The library lays out its structs as this header does. */
    if (!polgamir_library_fits()) {
        fprintf(stderr, "the library is of version %" PRIu32 ", and this program for %d\n", polgamir_version(),
                POLGAMIR_VERSION);
        return 1;
    }

    static int64_t table[CELLS];
    polgamir_job job = {0};
    job.mask = 1u << 0 | 1u << 3;

    /* Axis 0: from rest at 0 to rest at 6, on a pole whose swing has a half period of 3
       ticks and keeps half its size. */
    job.axes[0].target_kind = POLGAMIR_FIXED;
    job.axes[0].target_position = 6;
    job.axes[0].speed_limit = 10;
    job.axes[0].acceleration_limit = 1;
    job.axes[0].half_period = 3;
    job.axes[0].damping_kind = POLGAMIR_RATIO;
    job.axes[0].swing_ratio = 0.5f; /* the part of the swing that is left after a half period */

    /* Axis 3: from rest at 0 it meets a target that is at 2 at tick 4 and moves one unit a tick; no
       blend. */
    job.axes[3].target_kind = POLGAMIR_MOVING;
    job.axes[3].target_position = 2;
    job.axes[3].target_velocity = 1;
    job.axes[3].target_tick = 4;
    job.axes[3].speed_limit = 10;
    job.axes[3].acceleration_limit = 1;
    job.axes[3].second_weight = 128;

    /* With no table the answer says the arrival, and so how many cells to lend: 3 for
       each axis and each of rows 0 to N. */
    polgamir_answer answer = polgamir_plan_job(job, NULL, 0);
    printf("cells %zu\n", polgamir_cells_needed(polgamir_axis_count(job.mask), answer.arrival));
    show(polgamir_plan_job(job, table, CELLS), table);

    /* The same job asked to arrive at tick 4: the mask says that axis 0 cannot. */
    job.asked = 4;
    show(polgamir_plan_job(job, table, CELLS), table);

    /* At tick 5 neither, but what to raise so that it could: of the acceleration limit 5 more, and
       no raise of the speed limit alone. */
    job.asked = 5;
    polgamir_axis_raises raises = polgamir_raises_job(job).axes[0];
    printf("raise limit %" PRIu32 " of axis 0 by %" PRIu32 "\n", raises.first.limit, raises.first.by);

    /* Its least arrival in a window that also holds a dwell of 2 ticks: at 8 the first one closes
       too soon, the second opens at 10. */
    job.asked = 0;
    job.windows = (polgamir_windows){.given = 1, .dwell = 2, .count = 2, .list = {{0, 9}, {10, 14}}};
    answer = polgamir_plan_job(job, table, CELLS);
    printf("in a window: arrival %" PRIu32 "\n", answer.arrival);

    /* Axis 0 alone, on a pole that has also a joint above which it swings over in 2 ticks. */
    job = (polgamir_job){.mask = 1u << 0, .axes = {job.axes[0]}};
    job.axes[0].second_sway_given = 1;
    job.axes[0].second_half_period = 2;
    printf("on a pole with a joint: ");
    show(polgamir_plan_job(job, table, CELLS), table);

    /* One axis from words: from rest at 0 to rest at 1, asked to arrive at tick 4. */
    static const uint32_t words[] = {
        0x10000001, 0x20000004, 0x30000000, 0x40000000, 0x5000000A, 0x60000001,
        0x70000000, 0x80000080, 0x90000001, 0xA0000000, 0xF0000000,
    };
    size_t word_count = sizeof words / sizeof words[0];
    show(polgamir_plan_words(words, word_count, table, CELLS), table);

    /* Its table needs 15 cells. */
    show(polgamir_plan_words(words, word_count, table, 14), table);

    /* The same rows from arrival backwards, as a display takes them that draws the approach
       to the target first: positions. */
    answer = polgamir_plan_words_backwards(words, word_count, table, CELLS);
    printf("backwards:");
    for (uint32_t place = 0; place <= answer.arrival; place++) {
        printf(" %" PRId64, polgamir_row(table, answer.mask, place, 0)[0]);
    }
    printf("\n");

    /* Axis 0 on its pole over two stops, from 0 to 6, where it stays for 5 ticks, and to -2:
       arrivals count from the tour's start. */
    polgamir_tour tour = {.mask = 1u << 0};
    tour.limits[0] = (polgamir_limits){
        .speed_limit = 10, .acceleration_limit = 1, .half_period = 3, .damping_kind = POLGAMIR_RATIO,
            .swing_ratio = 0.5f};
    static const polgamir_stop stops[] = {{.positions = {6}, .dwell = 5}, {.positions = {-2}, .dwell = 0}};
    uint32_t arrivals[2];
    polgamir_tour_answer toured = polgamir_plan_tour(tour, stops, 2, arrivals, 2);
    if (toured.number != POLGAMIR_ACCEPTED) {
        printf("refused %" PRIu32 " at stop %" PRIu64 ": %s\n", toured.number, toured.place,
               polgamir_refusal_text(toured.number));
        return 1;
    }
    printf("tour: stop 0 at tick %" PRIu32 ", stop 1 at tick %" PRIu32 ", total %" PRIu32 "\n", arrivals[0],
           arrivals[1], toured.total);
    return 0;
}
