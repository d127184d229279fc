/*
 * Pan and tilt from one stem to the next, planned on the controller itself and streamed to the
 * drives, a row each tick. The rows come in parts of 16, so that 16 KB of memory hold all of it:
 * the job, the rows and the stack. Needs no C library.
 *
 *     make -C examples/embedded run                        # a Cortex-M4F, in qemu-system-arm
 *     make -C examples/embedded run TARGET=cortex-m0plus   # a Cortex-M0 with 16 KB
 */
#include "board/semihosting.h"
#include "polgamir.h"

#define AXES 2
#define ROWS 16

static int64_t rows[ROWS * AXES * 3];
static int64_t driven[AXES][3];

/* One unit is a hundredth of a degree. The swing of this pole goes over in 30 ticks
   across the road and in 27 along it. */
static const polgamir_job stem = {
    .mask = 1u << 0 | 1u << 1,
    .axes = {
        {.start_position = -350, .target_position = 2050, .speed_limit = 40, .acceleration_limit = 2, .half_period = 30,
         .second_weight = 113},
        {.start_position = 420, .target_position = -430, .speed_limit = 25, .acceleration_limit = 1, .half_period = 27,
         .second_weight = 111},
    },
};

/* The drive of an axis. One on a head writes position, velocity and acceleration, each in 1/256
   unit, to its registers or a bus. */
static void drive(unsigned axis, const int64_t *cells)
{
    for (unsigned i = 0; i < 3; i++) {
        driven[axis][i] = cells[i];
    }
}

/* The system timer of a Cortex-M: its control, and what it counts down from, a millisecond at 16
   MHz. */
#define SYSTICK_CONTROL (*(volatile uint32_t *)0xE000E010)
#define SYSTICK_RELOAD (*(volatile uint32_t *)0xE000E014)

static void wait_for_tick(void)
{
    while ((SYSTICK_CONTROL & 1u << 16) == 0) { /* it has not come to 0 since this was read last */
    }
}

int main(void)
{
    polgamir_job job = stem;
    uint32_t tick = 0;
    SYSTICK_RELOAD = 16000 - 1;
    SYSTICK_CONTROL = 1u << 2 | 1u; /* the processor's clock, and on */
    do {
        polgamir_part_answer part = polgamir_plan_job_part(job, tick, rows, ROWS * AXES * 3);
        if (part.number != POLGAMIR_ACCEPTED) {
            say(polgamir_refusal_text(part.number));
            return 1;
        }
        job.asked = part.arrival; /* found once, and asked for in the later parts */
        for (uint32_t row = 0; row < part.rows; row++, tick++) {
            wait_for_tick();
            for (unsigned axis = 0; axis < AXES; axis++) {
                drive(axis, polgamir_row(rows, part.mask, row, axis));
            }
        }
    } while (tick <= job.asked);
    say_number(job.asked);
    for (unsigned cell = 0; cell < 3 * AXES; cell++) {
        say(" ");
        say_number(driven[cell / 3][cell % 3]);
    }
    say("\n");
    return 0;
}
