/*
 * Polgamir: motion tables for a scanner head on a swaying pole.
 *
 * A job says for each axis where it starts, what it is to land on, its limits, and the pole's half
 * period and damping. A call writes a table of position, velocity and acceleration, a row a tick.
 * Every axis lands exactly on its target, all at one tick, and the pole stands still. A job that
 * cannot be planned gets a number that says why.
 *
 *     polgamir_plan_job     a table from a job, row 0 first      polgamir_plan_words
 *         .._backwards      the same rows, last row first        .._backwards
 *         .._part           some rows, from any row on           .._part
 *     polgamir_search_job   the arrival, a few ticks a call      polgamir_search_words
 *     polgamir_raises_job   what to raise for an arrival         polgamir_raises_words
 *     polgamir_plan_tour    the arrivals of a tour of stops
 *     polgamir_convert      words of an old job to words that can be planned
 *
 * Units    Time is a whole number of ticks. Inputs are whole units, units per tick and units per
 *          tick squared. A cell of a table is in fine steps of 1/256 unit, per tick and per tick
 *          squared for velocities and accelerations.
 * Memory   What you lend is used during the call only, and nothing is kept after it. A pointer
 *          whose count is 0 is not looked at and may be null. Any other is not null and is aligned
 *          for its type. What is written does not overlap what is read. No heap, no system call.
 * Threads  The library has no state and takes no lock: any number of threads may call it.
 * Floats   Only damping as measured is worked out in floats, in single precision. The thread has
 *          to round to nearest and to keep subnormal numbers, as every program does when it
 *          starts, save one that is linked with gcc's -ffast-math. In another environment a
 *          measured weight may differ, or refusal 12 come in its place.
 * Stack    Up to 12,000 bytes a call, its job among them, and 20,500 a tour: POLGAMIR_STACK.
 * Time     On a 2.5 GHz core the longest search takes 2 microseconds, with any targets;
 *          the longest call, a table of 4,097 rows of six axes, 0.2 ms. To spread it over the
 *          turns of a servo: polgamir_search_job, then polgamir_plan_job_part.
 * Link     lib/libpolgamir.a, or the shared library by -lpolgamir, pkg-config or CMake's package
 *          polgamir; where it is not installed, add -Llib and -Wl,-rpath,FOLDER/lib. It takes
 *          memcpy and memset from outside, and 64-bit division and floats from the compiler's own
 *          library where the processor lacks them.
 *
 * 'Promise' names what is proved of a call, for every input: docs/BUYERS.md says how to read and
 * check it. The lines of the examples stand in examples/c/calls.c.
 */
#ifndef POLGAMIR_H
#define POLGAMIR_H

#include <stddef.h>
#include <stdint.h>

#ifdef __cplusplus
extern "C" {
#endif

/* ---- Version ------------------------------------------------------------------------------- */

/* The version of this header. */
#define POLGAMIR_VERSION_MAJOR 0
#define POLGAMIR_VERSION_MINOR 2
#define POLGAMIR_VERSION_PATCH 0
#define POLGAMIR_VERSION (1000000 * POLGAMIR_VERSION_MAJOR + 1000 * POLGAMIR_VERSION_MINOR + POLGAMIR_VERSION_PATCH)

/*
 * What stays the same. Within a minor version, 0.2.0 to 0.2.x, nothing changes that a program can
 * see: the layout of every struct, the calls and their arguments, the numbers and their checking
 * order, the answer and every cell of a job. A program built against one of them runs with every
 * other. While the major number is 0, another minor version may change each of these; CHANGELOG.md
 * says so. From 1.0 on a minor version only adds calls and numbers.
 *
 * The shared library is named by major and minor number, libpolgamir.so.0.2, so that the loader
 * finds no other. A program that opens the library by itself asks polgamir_library_fits().
 */

/*
 * polgamir_version: the version of the library, counted as POLGAMIR_VERSION is.
 *
 * Promise: the version, as an equation (crates/capi/src/lib.rt).
 *
 * Example:
 *
 *     if (polgamir_version() != POLGAMIR_VERSION) {
 *         puts("the library is of another version than the header");
 *     }
 */
uint32_t polgamir_version(void);

/*
 * polgamir_library_fits: whether the library may be called by a program built with this header.
 *
 * Answer: 1, or 0 where the library may lay out its structs otherwise.
 *
 * Example:
 *
 *     if (!polgamir_library_fits()) {
 *         return 1;
 *     }
 */
static inline int polgamir_library_fits(void)
{
    return polgamir_version() / 1000u == POLGAMIR_VERSION / 1000u;
}

/* ---- Sizes --------------------------------------------------------------------------------- */

#define POLGAMIR_AXES 6              /* axes of a job, at most; they are numbered from 0 */
#define POLGAMIR_WINDOWS 32          /* windows of a job, at most */
#define POLGAMIR_LATEST_ARRIVAL 4096 /* the latest arrival, in ticks */
#define POLGAMIR_FINE_STEPS 256      /* fine steps of a unit */
#define POLGAMIR_MOST_CELLS 73746    /* 3 * 6 * (4096 + 1): so long a table never gets 10 */

/*
 * Enough bytes of stack for every call but a tour, also where the loader binds memcpy during the
 * first one. By target, measured and rounded up:
 *
 *     bytes of stack   x86-64  aarch64  armv7  cortex-m4f  cortex-m0plus  riscv64  riscv32  wasm32
 *     a plan            7,500    9,000  8,500       9,000          9,000    9,800    9,000   6,500
 *     a part            8,500   10,000  9,500      11,000         11,500   11,500   11,000   7,500
 *     raises            9,500   10,500 10,500      11,500         11,900   11,500   11,800   8,000
 *     a search          6,000    7,000  7,000       7,500          8,000    8,500    8,000   5,000
 *     a conversion      4,500    4,500  4,500       5,000          5,500    5,500    5,500   4,000
 *     a tour           17,500   18,500 18,500      19,500         19,800   20,500   20,400  16,000
 *
 * So a tour asks for 20,500.
 */
#define POLGAMIR_STACK 16384

/* ---- Numbers ------------------------------------------------------------------------------- */

/*
 * The numbers that a call returns, in checking order: each is checked over all axes, lowest first,
 * before the next one. docs/METHOD.md, 7.2, has this list.
 *
 * A refusal returns its number, a place, an axis mask and an arrival; what the list does not name
 * is 0. An index of a word counts from 0; an axis is its number, 0 to 5. A call with typed values
 * checks its mask by 1 and then goes on at 3. 7 is not used.
 *
 *     L    speed limit, 1 to 1,048,576
 *     M    acceleration limit, 1 to 65,536
 *     h    half period, 0 to 256 ticks; 0 means no blend (no input shaper)
 *     B    second weight, 1 to 128; the first is A = 256 - B, and B = 128 is an undamped pole
 *     N    arrival, 1 to 4,096
 */
enum polgamir_number {
    POLGAMIR_ACCEPTED = 0,                    /* The job is accepted. The mask is its own, the
                                               * arrival is N. */
    POLGAMIR_REFUSED_STOPS = 11,              /* A tour has more than 64 stops, or then a dwell
                                               * above 4,096; only a tour gets it, before its
                                               * legs. Place: 64; the first such stop. */
    POLGAMIR_REFUSED_MASK = 1,                /* The mask word is absent, not of kind 1, or its
                                               * payload is 0 or above 63. */
    POLGAMIR_REFUSED_WORDS = 2,               /* A word is not of a kind allowed next, the end
                                               * payload is not 0, or words are lacking or left
                                               * over. Place: the first such word's index, or the
                                               * word count where words are lacking. */
    POLGAMIR_REFUSED_LONG_POSITION = 14,      /* A kind 14 payload is outside -64 to 63, or its
                                               * position fits a single word. Place: the first
                                               * such word's index. */
    POLGAMIR_REFUSED_ASKED_ARRIVAL = 3,       /* The asked arrival is above 4,096. Place: 1. */
    POLGAMIR_REFUSED_LIMITS = 4,              /* L or M is outside its range. Place: the axis. */
    POLGAMIR_REFUSED_DAMPING = 12,            /* Of damping as measured, also when h is 0: the
                                               * first peak is not above zero, or the ratio is
                                               * not a number above 0 and at most 1. Place: the
                                               * axis. */
    POLGAMIR_REFUSED_BLEND = 5,               /* h or B is outside its range, B also when h is 0.
                                               * Place: the axis. */
    POLGAMIR_REFUSED_SECOND_HALF_PERIOD = 15, /* A second half period is outside its range.
                                               * Place: the axis. */
    POLGAMIR_REFUSED_START_OR_TARGET = 6,     /* Start or target velocity exceeds L in size,
                                               * target acceleration exceeds M in size, target
                                               * tick exceeds 4,096 in size, or a typed position
                                               * is outside -17,179,869,184 to 17,179,869,183.
                                               * Place: the axis. */
    POLGAMIR_REFUSED_ACCELERATION = 16,       /* The target accelerates on an axis with a second
                                               * half period. Place: the axis. */
    POLGAMIR_REFUSED_FLYING_TARGET = 17,      /* A fixed target has a velocity that is not 0; of
                                               * the converter, only where the least arrival is
                                               * sought. Place: the axis. */
    POLGAMIR_REFUSED_WINDOWS = 13,            /* The window list is empty; there are more than 32
                                               * windows, or then the dwell is above 4,096; then
                                               * a window's closing is not above its opening, or
                                               * it opens before the previous one closes. Place:
                                               * 0; 32; the first such window. */
    POLGAMIR_REFUSED_FIRST_CANDIDATE = 18,    /* The first candidate of a search is 0 or above
                                               * 4,097; only a search gets it, and 3, 8, 9 and 10
                                               * it does not. */
    POLGAMIR_REFUSED_NOT_REACHABLE = 8,       /* The asked arrival is not reachable for every
                                               * axis, or fits no window. The mask names the axes
                                               * for which it is not reachable, and is 0 where it
                                               * is for all. */
    POLGAMIR_REFUSED_NO_COMMON_ARRIVAL = 9,   /* No common arrival is asked for and none exists
                                               * in 1 to 4,096, or none that fits a window. The
                                               * mask, perhaps 0, names axes that alone reach
                                               * none, whatever the windows. */
    POLGAMIR_REFUSED_TABLE_TOO_SHORT = 10     /* The lent table has fewer than 3 * axes * (N + 1)
                                               * cells; of a tour, the lent list is shorter than
                                               * the stops; of the converter, fewer words are
                                               * lent than it needs. Place: 0; of a tour, the
                                               * number of stops; of the converter, the number of
                                               * words needed. The arrival is N; of a tour and of
                                               * the converter, 0. */
};

/*
 * polgamir_refusal_text: what a number says, for a person.
 *
 *     number   the number of an answer
 *
 * Answer: a phrase without a full stop; never null.
 *
 * Example:
 *
 *     puts(polgamir_refusal_text(answer.number));
 */
static inline const char *polgamir_refusal_text(uint32_t number)
{
    switch (number) {
    case POLGAMIR_ACCEPTED: return "the job is accepted";
    case POLGAMIR_REFUSED_STOPS: return "a tour has more than 64 stops, or a dwell above 4096";
    case POLGAMIR_REFUSED_MASK: return "the mask names no axis, or one above 5";
    case POLGAMIR_REFUSED_WORDS: return "a word is of a wrong kind, lacking or left over";
    case POLGAMIR_REFUSED_LONG_POSITION:
        return "a kind 14 payload is not -64 to 63, or its position fits a single word";
    case POLGAMIR_REFUSED_ASKED_ARRIVAL: return "the asked arrival is above 4096";
    case POLGAMIR_REFUSED_LIMITS:
        return "the speed limit is not 1 to 1048576, or the acceleration limit is not 1 to 65536";
    case POLGAMIR_REFUSED_DAMPING:
        return "the first peak is not above zero, or the swing ratio is not a number above 0 and at most 1";
    case POLGAMIR_REFUSED_BLEND: return "the half period is not 0 to 256, or the second weight is not 1 to 128";
    case POLGAMIR_REFUSED_SECOND_HALF_PERIOD: return "the second half period is not 1 to 256";
    case POLGAMIR_REFUSED_START_OR_TARGET:
        return "a velocity is above the speed limit, the target acceleration is above the acceleration limit, "
               "the target tick is more than 4096 ticks from tick 0, or a position is not -17179869184 to "
               "17179869183";
    case POLGAMIR_REFUSED_ACCELERATION: return "the target accelerates on an axis with a second half period";
    case POLGAMIR_REFUSED_FLYING_TARGET: return "a fixed target has a velocity that is not 0";
    case POLGAMIR_REFUSED_WINDOWS:
        return "windows are lacking, more than 32, out of order or closed at once, or the dwell is above 4096";
    case POLGAMIR_REFUSED_FIRST_CANDIDATE: return "the first candidate of a search is 0 or above 4097";
    case POLGAMIR_REFUSED_NOT_REACHABLE: return "not every axis can arrive at the asked tick, or it fits no window";
    case POLGAMIR_REFUSED_NO_COMMON_ARRIVAL:
        return "no tick from 1 to 4096 suits every axis and fits a window where some are given";
    case POLGAMIR_REFUSED_TABLE_TOO_SHORT:
        return "the table is too short for rows 0 to the arrival, the list for a tour's stops, or the words for "
               "the converter";
    default: return "a number that this header does not have";
    }
}

/* ---- Answers and tables -------------------------------------------------------------------- */

/* What a call for a table returns. */
typedef struct polgamir_answer {
    uint32_t number;  /* a polgamir_number: 0 for an accepted job, else the refusal's */
    uint32_t mask;    /* bit i stands for axis i */
    uint64_t place;   /* what the number names: an index of a word, an axis, a window */
    uint32_t arrival; /* N, the arrival in ticks */
} polgamir_answer;

/*
 * The table of an accepted job has rows 0 to N. A row has the axes of the mask in ascending order,
 * each as position, velocity, acceleration: three cells of 64 bits. The call writes the first
 * 3 * axes * (N + 1) cells and no other. A refused call writes none.
 *
 * How to follow it. Row k is where the head is at tick k, how fast it moves then, and the
 * acceleration that it keeps until tick k + 1. Start each tick from its own row, so that what
 * rounding leaves does not add up: a row carried one tick on, to position + velocity +
 * acceleration / 2 and velocity + acceleration, misses the next row by at most 3/2 fine steps in
 * each. Row 0 is the start's position and velocity exactly, row N the target's position, velocity
 * and acceleration. No velocity cell exceeds 256 * L in size, no acceleration cell 256 * M.
 *
 * After row N the head goes on with its target: it rests where the target is fixed, and keeps the
 * acceleration of row N where the target moves. On a pole that swings as was entered, the motion
 * leaves no sway but that of the cells' rounding.
 */

/*
 * polgamir_axis_count: the number of axes that a mask names; bits above 5 do not count.
 *
 *     mask     of a job or an answer
 *
 * Example: see polgamir_cells_needed.
 */
static inline uint32_t polgamir_axis_count(uint32_t mask)
{
    uint32_t count = 0;
    for (mask &= (1u << POLGAMIR_AXES) - 1u; mask != 0; mask &= mask - 1u) {
        count++;
    }
    return count;
}

/*
 * polgamir_cells_needed: how long a table has to be.
 *
 *     axes     the number of axes, at most 6
 *     arrival  the arrival, at most 4,096; a call with 0 cells returns it with refusal 10
 *
 * Answer: 3 * axes * (arrival + 1) cells.
 *
 * Example:
 *
 *     polgamir_answer probe = polgamir_plan_job(job, NULL, 0);
 *     size_t cells = polgamir_cells_needed(polgamir_axis_count(job.mask), probe.arrival);
 *     int64_t *exact = malloc(cells * sizeof *exact);
 */
static inline size_t polgamir_cells_needed(uint32_t axes, uint32_t arrival)
{
    size_t rows = arrival;
    return 3u * axes * (rows + 1);
}

/*
 * polgamir_row: the three cells of an axis in a row.
 *
 *     table    the table that a call wrote
 *     mask     the answer's
 *     place    which row of the table, from 0: for tick k it is k, in a table from arrival
 *              backwards N - k, in a part k - first
 *     axis     0 to 5
 *
 * Answer: position, velocity and acceleration; null where the mask does not name the axis. Whether
 * the table has the row is not looked at.
 *
 * Example:
 *
 *     for (uint32_t tick = 0; tick <= answer.arrival; tick++) {
 *         const int64_t *cells = polgamir_row(table, answer.mask, tick, 0);
 *         printf("%" PRId64 " %" PRId64 " %" PRId64 "\n", cells[0], cells[1], cells[2]);
 *     }
 */
static inline const int64_t *polgamir_row(const int64_t *table, uint32_t mask, uint32_t place, uint32_t axis)
{
    size_t rows = place;
    uint32_t lower;
    if (axis >= POLGAMIR_AXES || (mask >> axis & 1u) == 0) {
        return NULL;
    }
    lower = mask & ((1u << axis) - 1u);
    return table + 3u * (polgamir_axis_count(mask) * rows + polgamir_axis_count(lower));
}

/* ---- Jobs ---------------------------------------------------------------------------------- */

/* What an axis is to land on. */
enum polgamir_target_kind {
    POLGAMIR_FIXED = 0, /* a position to come to rest at; its velocity is 0 */
    POLGAMIR_MOVING = 1 /* moves by itself; what is said of it holds at the target tick */
};

/* How the damping of an axis is said. */
enum polgamir_damping_kind {
    POLGAMIR_WEIGHT = 0, /* as B itself, in second_weight */
    POLGAMIR_RATIO = 1,  /* as swing_ratio: a swing to the one half a period before, up to 1 */
    POLGAMIR_PEAKS = 2   /* as first_peak and second_peak, half a period apart, both positive */
};

/*
 * Damping as measured becomes a weight. The ratio of two peaks is the second divided by the first,
 * rounded once. B is then the largest number from 1 to 128 that is at most the once-rounded product
 * of the ratio and 256 - B, or 1 if there is none. Ratio 1 gives 128, ratio 0.5 gives 85. The table
 * is that of the same job with this B.
 */

/*
 * An axis. Left at 0: start and target at 0 and at rest, a fixed target, no blend, no second sway.
 * Limits and damping have to be said.
 *
 * A pole with a joint swings at two rates. The second swing is said by its half period alone and is
 * taken as undamped; the arrival is then later than both half periods together, and the target does
 * not accelerate.
 */
typedef struct polgamir_axis {
    int64_t start_position;
    int64_t start_velocity;
    int64_t target_position;
    int64_t target_velocity;
    int64_t target_acceleration; /* this and target_tick: looked at only where the target moves */
    int64_t target_tick;
    uint32_t target_kind;        /* a polgamir_target_kind: 0 fixed, any other number moving */
    uint32_t speed_limit;        /* L */
    uint32_t acceleration_limit; /* M */
    uint32_t half_period;        /* h */
    uint32_t damping_kind;       /* a polgamir_damping_kind: 0 weight, 1 ratio, any other peaks */
    uint32_t second_weight;      /* B; of this and the next three only the kind's are read */
    float swing_ratio;
    float first_peak;
    float second_peak;
    uint32_t second_sway_given;  /* 0 for a pole that swings at one rate; the next is not read */
    uint32_t second_half_period; /* 1 to 256 ticks */
} polgamir_axis;

/*
 * A window of ticks. Arrival N fits it if opening <= N, N < closing and N + dwell <= closing.
 * Windows may touch; they do not join.
 */
typedef struct polgamir_window {
    uint32_t opening;
    uint32_t closing;
} polgamir_window;

/* The windows of a job, and how long the head stays from its arrival on. */
typedef struct polgamir_windows {
    uint32_t given;                         /* 0 for none; what follows is then not looked at */
    uint32_t dwell;                         /* 0 to 4,096 ticks */
    uint64_t count;                         /* 1 to 32 */
    polgamir_window list[POLGAMIR_WINDOWS]; /* the first `count`, in the order of their ticks */
} polgamir_windows;

/*
 * A job. `polgamir_job job = {0};`, in C++ `polgamir_job job{};`, has no axis and seeks the least
 * arrival.
 */
typedef struct polgamir_job {
    uint32_t mask;                     /* bit i is set where axis i takes part: 1 to 63 */
    uint32_t asked;                    /* 0 for the least arrival, or the one wanted, 1 to 4,096 */
    polgamir_axis axes[POLGAMIR_AXES]; /* an axis that is not in the mask is never looked at */
    polgamir_windows windows;
} polgamir_job;

/* ---- Plans --------------------------------------------------------------------------------- */

/*
 * polgamir_plan_job: plan a job and write its table.
 *
 *     job          the job, by value
 *     table        where the rows go; what stood there has no effect
 *     table_cells  how many cells are lent there; 0 to ask for the arrival alone
 *
 * Answer: number 0, the job's mask and arrival N, with rows 0 to N in the table. The least arrival
 * is the least tick from 1 to 4,096 that every axis reaches and that fits a window.
 * Refusals, in checking order: 1, 3, 4, 12, 5, 15, 6, 16, 17, 13, 8, 9, 10.
 *
 * Promise: `Promise Forwards`: answer and every cell as the method defines them, row N on target,
 * no sway left before rounding (crates/planner/specs/Promise.antt).
 *
 * Example:
 *
 *     polgamir_job job = {0};
 *     job.mask = 1u << 0;
 *     job.axes[0].target_position = 6;
 *     job.axes[0].speed_limit = 10;
 *     job.axes[0].acceleration_limit = 1;
 *     job.axes[0].half_period = 3;
 *     job.axes[0].damping_kind = POLGAMIR_RATIO;
 *     job.axes[0].swing_ratio = 0.5f;
 *     polgamir_answer answer = polgamir_plan_job(job, table, POLGAMIR_MOST_CELLS);
 */
polgamir_answer polgamir_plan_job(polgamir_job job, int64_t *table, size_t table_cells);

/*
 * polgamir_plan_words: plan the job that words hold and write its table.
 *
 *     words        32-bit words, read only
 *     word_count   how many; the longest job has 81
 *     table        where the rows go
 *     table_cells  how many cells are lent there
 *
 * The top four bits of a word are its kind, the low 28 its payload. Kinds 3, 4, 9, 10, 11, 12 and
 * 14 carry two's complement payloads, the others unsigned. In order:
 *
 *     1            axis mask
 *     2            0 for the least arrival, or the one asked for, 1 to 4,096
 *     3 4          for each axis of the mask, lowest first: start position, start velocity,
 *     5 6 7 8      L, M, h, B,
 *     13           of a pole with a second sway: second half period,
 *     9 10         target position, target velocity,
 *     11 12        of a moving target: acceleration, tick
 *     15           the end, payload 0
 *
 * A position that 28 bits do not hold has a word of kind 14 just before its word of kind 3 or 9. It
 * is the payload of kind 14, -64 to 63, times 2^28 plus the following payload read as unsigned. A
 * position that fits a single word has no word of kind 14.
 *
 * Answer: as polgamir_plan_job.
 * Refusals, in checking order: 1, 2, 14, 3, 4, 5, 15, 6, 16, 17, 8, 9, 10.
 *
 * Promise: `Promise Forwards` (crates/planner/specs/Promise.antt).
 *
 * Example:
 *
 *     static const uint32_t words[] = {
 *         0x10000001, 0x20000004, 0x30000000, 0x40000000, 0x5000000A, 0x60000001,
 *         0x70000000, 0x80000080, 0x90000001, 0xA0000000, 0xF0000000,
 *     };
 *     polgamir_answer answer = polgamir_plan_words(words, 11, table, POLGAMIR_MOST_CELLS);
 */
polgamir_answer polgamir_plan_words(const uint32_t *words, size_t word_count, int64_t *table, size_t table_cells);

/*
 * polgamir_plan_job_backwards: plan a job, with the rows from arrival backwards.
 *
 *     job, table, table_cells   as of polgamir_plan_job
 *
 * Answer: as polgamir_plan_job, refusals too. Row N stands first and row 0 last, each laid out as
 * before and equal to the forward call's row for that tick.
 *
 * Promise: `Promise Backwards` (crates/planner/specs/Promise.antt).
 *
 * Example:
 *
 *     polgamir_answer answer = polgamir_plan_job_backwards(job, table, POLGAMIR_MOST_CELLS);
 *     const int64_t *landing = polgamir_row(table, answer.mask, 0, 0);
 */
polgamir_answer polgamir_plan_job_backwards(polgamir_job job, int64_t *table, size_t table_cells);

/*
 * polgamir_plan_words_backwards: the same for the job that words hold.
 *
 *     words, word_count, table, table_cells   as of polgamir_plan_words
 *
 * Answer: as polgamir_plan_words, refusals too, with the rows in the order of
 * polgamir_plan_job_backwards.
 *
 * Promise: `Promise Backwards` (crates/planner/specs/Promise.antt).
 *
 * Example:
 *
 *     answer = polgamir_plan_words_backwards(words, 11, table, POLGAMIR_MOST_CELLS);
 */
polgamir_answer polgamir_plan_words_backwards(const uint32_t *words, size_t word_count, int64_t *table,
                                              size_t table_cells);

/* What a call for rows in parts returns. */
typedef struct polgamir_part_answer {
    uint32_t number;  /* as in polgamir_answer; 10 never comes */
    uint32_t mask;
    uint64_t place;
    uint32_t arrival;
    uint32_t rows;    /* rows written: 0 if refused, if none fits, if first is above N */
} polgamir_part_answer;

/*
 * polgamir_plan_job_part: plan a job and write some of its rows.
 *
 *     job          the job; set `asked` to the arrival that the first part gave, so that no later
 *                  one searches again
 *     first        the first row wanted
 *     table        where the rows go: 24 bytes a row and axis
 *     table_cells  how many cells are lent there
 *
 * Answer: as polgamir_plan_job with a table that is long enough, so that 10 never comes; and how
 * many rows were written: row `first` at the start of the table, then as many whole rows as it
 * holds, up to row N. The cells after them stay. No row before `first` is worked out.
 *
 * Promise: `PartPromise`: each row equals the whole table's (crates/parts/specs/Promise.antt).
 *
 * Example:
 *
 *     int64_t part[16 * 3];
 *     uint32_t first = 0;
 *     polgamir_part_answer some;
 *     do {
 *         some = polgamir_plan_job_part(job, first, part, 16 * 3);
 *         first += some.rows;
 *     } while (some.rows > 0);
 */
polgamir_part_answer polgamir_plan_job_part(polgamir_job job, uint32_t first, int64_t *table, size_t table_cells);

/*
 * polgamir_plan_words_part: plan the job that words hold and write some of its rows.
 *
 *     words, word_count           as of polgamir_plan_words
 *     first, table, table_cells   as of polgamir_plan_job_part
 *
 * Answer: as polgamir_plan_job_part, with the refusals of polgamir_plan_words but for 10.
 *
 * Promise: `PartPromise` (crates/parts/specs/Promise.antt).
 *
 * Example:
 *
 *     polgamir_part_answer two = polgamir_plan_words_part(words, 11, 3, table, 2 * 3);
 */
polgamir_part_answer polgamir_plan_words_part(const uint32_t *words, size_t word_count, uint32_t first, int64_t *table,
                                              size_t table_cells);

/* ---- Raises -------------------------------------------------------------------------------- */

/* A limit of an axis, or none. */
enum polgamir_limit {
    POLGAMIR_NO_LIMIT = 0,           /* no raise */
    POLGAMIR_ACCELERATION_LIMIT = 1, /* a raise of M */
    POLGAMIR_SPEED_LIMIT = 2         /* a raise of L */
};

/* A raise of one limit, the other staying as it is; none has 0 in both fields. */
typedef struct polgamir_raise {
    uint32_t limit; /* a polgamir_limit */
    uint32_t by;    /* what is added to it, at least 1 */
} polgamir_raise;

/*
 * The raises of an axis. Each is the least raise of its limit alone, within the limit's range, for
 * which the axis can arrive: it is enough, and one less is not.
 */
typedef struct polgamir_axis_raises {
    polgamir_raise first;  /* the smaller, that of M if both are equal; or none */
    polgamir_raise second; /* the other limit's, or none */
} polgamir_axis_raises;

/* What a call for raises returns. */
typedef struct polgamir_raises {
    polgamir_answer answer;                   /* to the job */
    polgamir_axis_raises axes[POLGAMIR_AXES]; /* the raises of axis i in entry i */
} polgamir_raises;

/*
 * polgamir_raises_job: what to raise where an asked arrival is turned down with 8.
 *
 *     job      the job, with the arrival in `asked`
 *
 * Answer: that of polgamir_plan_job with a table that is long enough, so that 10 never comes. Where
 * its number is 8, each axis that its mask names has its raises, and no other axis has any. With
 * any other number there are none. Raises heed no window.
 *
 * Promise: `RaisesReturned` (crates/capi/specs/Raises.antt).
 *
 * Example:
 *
 *     job.asked = 5;
 *     polgamir_raises raises = polgamir_raises_job(job);
 *     if (raises.axes[0].first.limit == POLGAMIR_ACCELERATION_LIMIT) {
 *         printf("raise the acceleration limit by %" PRIu32 "\n", raises.axes[0].first.by);
 *     }
 */
polgamir_raises polgamir_raises_job(polgamir_job job);

/*
 * polgamir_raises_words: the same for the job that words hold.
 *
 *     words, word_count   as of polgamir_plan_words
 *
 * Answer: as polgamir_raises_job, with the refusals of polgamir_plan_words but for 10.
 *
 * Promise: `RaisesReturned` (crates/capi/specs/Raises.antt).
 *
 * Example:
 *
 *     polgamir_raises none = polgamir_raises_words(words, 11);
 */
polgamir_raises polgamir_raises_words(const uint32_t *words, size_t word_count);

/* ---- Tours --------------------------------------------------------------------------------- */

#define POLGAMIR_MOST_STOPS 64      /* stops of a tour, at most */
#define POLGAMIR_LONGEST_DWELL 4096 /* ticks of a dwell, at most */

/* A stop of a tour: where each axis is to rest, and for how many ticks, 0 to 4,096. */
typedef struct polgamir_stop {
    int64_t positions[POLGAMIR_AXES];
    uint32_t dwell;
} polgamir_stop;

/* The limits and the blend of an axis, as in polgamir_axis. */
typedef struct polgamir_limits {
    uint32_t speed_limit;
    uint32_t acceleration_limit;
    uint32_t half_period;
    uint32_t damping_kind;
    uint32_t second_weight;
    float swing_ratio;
    float first_peak;
    float second_peak;
    uint32_t second_sway_given;
    uint32_t second_half_period;
} polgamir_limits;

/* What a tour has besides its stops. */
typedef struct polgamir_tour {
    uint32_t mask;                         /* bit i is set where axis i takes part: 1 to 63 */
    int64_t start[POLGAMIR_AXES];          /* where each axis starts, at rest */
    polgamir_limits limits[POLGAMIR_AXES]; /* the same for all legs; read for axes of the mask */
} polgamir_tour;

/* What a call for a tour returns; what a number does not name is 0. */
typedef struct polgamir_tour_answer {
    uint32_t number;  /* a polgamir_number */
    uint32_t mask;    /* the tour's, or the refused leg's */
    uint64_t place;   /* the stop whose leg is refused, or what 10 or 11 name */
    uint32_t arrival; /* of a refused leg */
    uint32_t total;   /* of an accepted tour: the last arrival plus its dwell */
} polgamir_tour_answer;

/*
 * polgamir_plan_tour: the arrivals of a tour of stops.
 *
 *     tour          mask, start and limits, by value
 *     stops         the stops in order, read only
 *     stop_count    how many, at most 64; with 0 nothing else is read
 *     arrivals      where each stop's arrival goes, counted from the tour's start
 *     list_entries  how many entries are lent there; later entries stay
 *
 * Each leg is a job of its own: from rest where the last leg ended, after its dwell, to rest at the
 * stop, at its least arrival. A leg's table is that of polgamir_plan_job with 0 asked.
 *
 * Answer: number 0, the tour's mask and its total; with no stops mask 0 and total 0. A refused tour
 * writes nothing.
 * Refusals, in checking order: 11; then leg after leg the first of 1, 4, 12, 5, 15, 6, 9 that its
 * job gets, with the stop as place; then 10.
 *
 * Promise: `TourPromise` (crates/stops/specs/Promise.antt).
 *
 * Example:
 *
 *     polgamir_tour tour = {.mask = 1u << 0};
 *     tour.limits[0].speed_limit = 10;
 *     tour.limits[0].acceleration_limit = 1;
 *     tour.limits[0].second_weight = 128;
 *     polgamir_stop stops[2] = {{.positions = {6}, .dwell = 5}, {.positions = {-2}}};
 *     uint32_t arrivals[2];
 *     polgamir_tour_answer toured = polgamir_plan_tour(tour, stops, 2, arrivals, 2);
 */
polgamir_tour_answer polgamir_plan_tour(polgamir_tour tour, const polgamir_stop *stops, size_t stop_count,
                                        uint32_t *arrivals, size_t list_entries);

/* ---- Searches ------------------------------------------------------------------------------ */

/* What a search reports. */
enum polgamir_report {
    POLGAMIR_NONE = 0,  /* no tick does, and no candidate is left */
    POLGAMIR_FOUND = 1, /* `arrival` is the least tick that does */
    POLGAMIR_SPENT = 2  /* none within the budget does: go on from `next` */
};

/* What a search returns; what a number or a report does not name is 0. */
typedef struct polgamir_search_answer {
    uint32_t number;  /* a polgamir_number; nothing is tried for a refused job */
    uint32_t mask;    /* bit i stands for axis i */
    uint64_t place;   /* an index of a word, an axis or a window */
    uint32_t arrival; /* where it is FOUND, the tick */
    uint32_t report;  /* a polgamir_report */
    uint32_t next;    /* where it is SPENT, the next candidate */
    uint32_t tried;   /* candidates: arrival - first + 1, the budget, or all left, 4,097 - first */
} polgamir_search_answer;

/*
 * polgamir_search_job: look for the arrival, some candidates a call.
 *
 *     job      the job; `asked` is not looked at
 *     first    the first candidate, 1 to begin with; 4,097 is NONE
 *     budget   how many candidates at most, those outside the windows too; 0 tries nothing and is
 *              SPENT while a candidate is left
 *
 * Answer: FOUND with the least tick from `first` on, up to 4,096 and within the budget, that every
 * axis reaches and that fits a window where windows are given; SPENT with the next candidate; or
 * NONE. No candidate past the budget is looked at (how long that takes: docs/PERFORMANCE.md).
 * Refusals, in checking order: 1, 4, 12, 5, 15, 6, 16, 17, 13, 18.
 *
 * While it is SPENT, call again with first = next, any budget, and the same job. That ends in the
 * tick, or the NONE, of one undivided search, and its numbers tried add up to that search's; with
 * budgets of at least 1 within 4,096 calls. Then set `asked` to the tick and plan. Nothing is kept
 * between calls: for another job begin again at 1.
 *
 * Promise: `SearchReturned` (crates/capi/specs/Searches.antt).
 *
 * Example:
 *
 *     polgamir_search_answer found = {.report = POLGAMIR_SPENT, .next = 1};
 *     while (found.report == POLGAMIR_SPENT) {
 *         found = polgamir_search_job(job, found.next, 20);
 *     }
 *     if (found.report == POLGAMIR_FOUND) {
 *         job.asked = found.arrival;
 *     }
 */
polgamir_search_answer polgamir_search_job(polgamir_job job, uint32_t first, uint32_t budget);

/*
 * polgamir_search_words: the same for the job that words hold.
 *
 *     words, word_count   as of polgamir_plan_words
 *     first, budget       as of polgamir_search_job
 *
 * Answer: as polgamir_search_job.
 * Refusals, in checking order: 1, 2, 14, 4, 5, 15, 6, 16, 17, 18.
 *
 * Promise: `SearchReturned` (crates/capi/specs/Searches.antt).
 *
 * Example:
 *
 *     polgamir_search_answer one = polgamir_search_words(words, 11, 1, 4096);
 */
polgamir_search_answer polgamir_search_words(const uint32_t *words, size_t word_count, uint32_t first,
                                             uint32_t budget);

/* ---- Old jobs ------------------------------------------------------------------------------ */

/*
 * polgamir_convert: turn the words of an old job into those of a job that can be planned.
 *
 *     words        the old job, read only
 *     word_count   how many words it has
 *     lent         where the converted job goes; word_count + 12 words are always enough
 *     lent_count   how many words are lent there; later words stay
 *
 * In an old job a fixed target may have a velocity. Where an arrival is asked for, each such target
 * becomes a moving one of acceleration 0 at that tick: after its velocity come a word of kind 11
 * with payload 0 and a word of kind 12 with the asked arrival. All other words are copied. Whether
 * the arrival can be reached is not looked at.
 *
 * Answer: number 0 with the number of words written as place; mask and arrival are 0. A refused
 * call writes nothing.
 * Refusals, in checking order: 1, 2, 14, 3, 4, 5, 15, 6, 16; 17 only where the least arrival is
 * sought; 10 with the number of words needed as place.
 *
 * Promise: `Converts`: planned, the words give the answer and the table that the old job had
 * (crates/converter/specs/Promise.antt).
 *
 * Example:
 *
 *     uint32_t lent[11 + 12];
 *     polgamir_answer converted = polgamir_convert(old, 11, lent, 11 + 12);
 *     if (converted.number == POLGAMIR_ACCEPTED) {
 *         answer = polgamir_plan_words(lent, (size_t)converted.place, table, POLGAMIR_MOST_CELLS);
 *     }
 */
polgamir_answer polgamir_convert(const uint32_t *words, size_t word_count, uint32_t *lent, size_t lent_count);

#ifdef __cplusplus
}
#endif

#endif
