/*
 * Planning between the turns of a servo loop, on a controller that has no room for a table. Each
 * turn has some time left. First it goes to a few candidates of the search, until the arrival is
 * found; then to the rows, sixteen at a time, just before they are needed.
 *
 *     make -C examples/c run
 */
#include <inttypes.h>
#include <stdio.h>

#include "polgamir.h"

#define AXES 2
#define ROW (3 * AXES) /* cells of a row */
#define ROWS 16        /* rows of a part */

/* The candidates of a turn. The time of a call is bounded by a constant: docs/PERFORMANCE.md. */
#define BUDGET 20

/* What the controller is at. */
enum stage { SEARCHING, FOLLOWING, ARRIVED, REFUSED };

/* What it keeps from turn to turn; the library keeps nothing. Rows k of parts 0, 2, 4, .. stand in
   part[0], the others in part[1]. */
struct planning {
    enum stage stage;
    polgamir_job job;
    uint32_t first;   /* the next candidate */
    uint32_t tried;   /* in all turns */
    uint32_t arrival; /* row N is the last */
    uint32_t ready;   /* rows that were planned so far */
    uint32_t row;     /* the row to follow */
    int64_t part[2][ROW * ROWS];
};

static void refused(struct planning *plan, uint32_t number)
{
    printf("refused %" PRIu32 ": %s\n", number, polgamir_refusal_text(number));
    plan->stage = REFUSED;
}

/* A few candidates; what is left to do comes in the next turn. */
static void search(struct planning *plan)
{
    polgamir_search_answer some = polgamir_search_job(plan->job, plan->first, BUDGET);
    plan->tried += some.tried;
    if (some.number != POLGAMIR_ACCEPTED) {
        refused(plan, some.number);
    } else if (some.report == POLGAMIR_SPENT) {
        plan->first = some.next;
        printf("spent, go on at %" PRIu32 "\n", some.next);
    } else if (some.report == POLGAMIR_FOUND) {
        plan->job.asked = plan->arrival = some.arrival; /* so that no call searches again */
        plan->stage = FOLLOWING;
        printf("found %" PRIu32 ", %" PRIu32 " candidates tried\n", some.arrival, plan->tried);
    } else {
        printf("no arrival, %" PRIu32 " candidates tried\n", plan->tried);
        plan->stage = REFUSED;
    }
}

/* The next sixteen rows, into the part whose rows have all been followed. */
static void plan_part(struct planning *plan)
{
    int64_t *part = plan->part[plan->ready / ROWS % 2];
    polgamir_part_answer planned = polgamir_plan_job_part(plan->job, plan->ready, part, ROW * ROWS);
    if (planned.number != POLGAMIR_ACCEPTED) {
        refused(plan, planned.number);
        return;
    }
    printf("rows %" PRIu32 " to %" PRIu32 "\n", plan->ready, plan->ready + planned.rows - 1);
    plan->ready += planned.rows;
}

/* The drive gets a row. */
static void follow(struct planning *plan, unsigned turn)
{
    const int64_t *row = plan->part[plan->row / ROWS % 2] + ROW * (plan->row % ROWS);
    if (plan->row == plan->arrival) {
        printf("turn %u: on target, %" PRId64 " and %" PRId64 " fine steps\n", turn, row[0], row[3]);
        plan->stage = ARRIVED;
    }
    plan->row++;
}

int main(void)
{
    static struct planning plan = {.stage = SEARCHING, .first = 1};
    plan.job.mask = 1u << 0 | 1u << 1;
    /* Pan, on a pole that swings over in 12 ticks and keeps four fifths of its swing, and tilt; the
       head may fire from tick 60 on. */
    plan.job.axes[0] = (polgamir_axis){.target_position = 900, .speed_limit = 40, .acceleration_limit = 2,
                                       .half_period = 12,
                                       .damping_kind = POLGAMIR_RATIO, .swing_ratio = 0.8f};
    plan.job.axes[1] = (polgamir_axis){.start_position = 120, .target_position = -200, .speed_limit = 25,
                                       .acceleration_limit = 1,
                                       .second_weight = 128};
    plan.job.windows = (polgamir_windows){.given = 1, .dwell = 10, .count = 1, .list = {{60, 200}}};

    for (unsigned turn = 0; turn < 200 && plan.stage != REFUSED && plan.stage != ARRIVED; turn++) {
        /* the servo's own work: the row of this turn */
        if (plan.stage == FOLLOWING && plan.row < plan.ready) {
            follow(&plan, turn);
        }
        /* the time that is left */
        if (plan.stage == SEARCHING) {
            printf("turn %u: ", turn);
            search(&plan);
        } else if (plan.stage == FOLLOWING && plan.ready <= plan.arrival && plan.ready < plan.row + ROWS + 1) {
            printf("turn %u: ", turn);
            plan_part(&plan);
        }
    }
    return plan.stage == ARRIVED ? 0 : 1;
}
