/*
 * Damping as measured, in whatever floating-point environment the program has:
 *
 *     floats [nearest | zero | down | up]      # sets the rounding first
 *
 * Prints what comes of two poles, a weight or a refusal: one whose ratio is the least single above
 * 0, and one with peaks 97 and 31. To nearest and with subnormal numbers kept, as the header asks
 * for, that is 1 and 61. A program that is linked with gcc's -ffast-math takes the ratio for 0.
 */
#include <fenv.h>
#include <inttypes.h>
#include <stdio.h>
#include <string.h>

#include "polgamir.h"

/* A pole from rest to 1,000 in 3 ticks, with a half period of 1. Its velocity at tick 1 is
   256,000 - 1,000 B cells: that tells the weight B. */
static void show(polgamir_axis measured)
{
    int64_t table[12];
    polgamir_job job = {0};
    job.mask = 1;
    job.asked = 3;
    job.axes[0] = measured;
    job.axes[0].target_position = 1000;
    job.axes[0].speed_limit = 2000;
    job.axes[0].acceleration_limit = 1000;
    job.axes[0].half_period = 1;
    polgamir_answer answer = polgamir_plan_job(job, table, 12);
    if (answer.number != POLGAMIR_ACCEPTED) {
        printf("refused %" PRIu32 "\n", answer.number);
    } else {
        printf("weight %" PRId64 "\n", (256000 - table[4]) / 1000);
    }
}

int main(int count, char **words)
{
    const char *rounding = count > 1 ? words[1] : "nearest";
    fesetround(strcmp(rounding, "zero") == 0   ? FE_TOWARDZERO
               : strcmp(rounding, "down") == 0 ? FE_DOWNWARD
               : strcmp(rounding, "up") == 0   ? FE_UPWARD
                                               : FE_TONEAREST);
    const uint32_t least = 1; /* the bits of the least single above 0 */
    polgamir_axis axis = {0};
    axis.damping_kind = POLGAMIR_RATIO;
    memcpy(&axis.swing_ratio, &least, sizeof least);
    show(axis);
    axis.damping_kind = POLGAMIR_PEAKS;
    axis.first_peak = 97.0f;
    axis.second_peak = 31.0f;
    show(axis);
    return 0;
}
