/*
 * What a call takes of the stack, and how long the longest ones take: the figures of
 * include/polgamir.h, measured. Each call runs on a stack that is painted before; how far down the
 * paint is gone says what it took. No call recurses, so a few jobs that take every way through the
 * library will do. They run twice, because a loader may bind memcpy on the first run's stack.
 * Prints the figures, and returns 0 where each is at most what the header says.
 */
#define _GNU_SOURCE
#include <inttypes.h>
#include <stdbool.h>
#include <stdio.h>
#include <string.h>
#include <time.h>
#include <ucontext.h>

#include "polgamir.h"

#define PAINT 0xA5

/* The bytes that the header says a call takes by itself, for a job and for a tour. */
#define JOB_STACK 12000
#define TOUR_STACK 20000

/* Seconds of processor time, some times what the header says of a 2.5 GHz core: room for a slower
   or a busy machine, not for another order. */
#define LONGEST_SEARCH 0.01
#define LONGEST_ASKED 0.002

static unsigned char stack[65536] __attribute__((aligned(16)));
static int64_t table[POLGAMIR_MOST_CELLS];
static ucontext_t outside, inside;

/* The call that is measured: a job, or words where there are some. */
static polgamir_job job;
static uint32_t words[64];
static size_t word_count;
static uint32_t lent[81];
static polgamir_answer answer;
static polgamir_tour tour;
static polgamir_stop stops[POLGAMIR_MOST_STOPS];
static uint32_t arrivals[POLGAMIR_MOST_STOPS];

static void plan_words(void)
{
    answer = polgamir_plan_words(words, word_count, table, POLGAMIR_MOST_CELLS);
}

static void plan_job(void)
{
    answer = polgamir_plan_job(job, table, POLGAMIR_MOST_CELLS);
}

static void raises(void)
{
    answer = polgamir_raises_job(job).answer;
}

static void plan_backwards(void)
{
    answer = polgamir_plan_job_backwards(job, table, POLGAMIR_MOST_CELLS);
}

static void plan_words_backwards(void)
{
    answer = polgamir_plan_words_backwards(words, word_count, table, POLGAMIR_MOST_CELLS);
}

static void raises_words(void)
{
    answer = polgamir_raises_words(words, word_count).answer;
}

static void convert(void)
{
    answer = polgamir_convert(words, word_count, lent, sizeof lent / sizeof *lent);
}

static void plan_tour(void)
{
    polgamir_tour_answer toured = polgamir_plan_tour(tour, stops, POLGAMIR_MOST_STOPS, arrivals, POLGAMIR_MOST_STOPS);
    answer = (polgamir_answer){.number = toured.number, .mask = toured.mask, .place = toured.place,
                               .arrival = toured.arrival};
}

static void search_job(void)
{
    polgamir_search_answer searched = polgamir_search_job(job, 1, POLGAMIR_LATEST_ARRIVAL);
    answer = (polgamir_answer){.number = searched.number, .mask = searched.mask, .place = searched.place,
                               .arrival = searched.arrival};
}

static void search_words(void)
{
    polgamir_search_answer searched = polgamir_search_words(words, word_count, 1, POLGAMIR_LATEST_ARRIVAL);
    answer = (polgamir_answer){.number = searched.number, .mask = searched.mask, .place = searched.place,
                               .arrival = searched.arrival};
}

static double seconds(void)
{
    struct timespec now;
    clock_gettime(CLOCK_THREAD_CPUTIME_ID, &now);
    return (double)now.tv_sec + 1e-9 * (double)now.tv_nsec;
}

/* The greatest figures of one run. */
static size_t most_stack;
static double longest_search, longest_asked;
static int failures;

/* Makes a call on the painted stack and gives back the seconds that it took. */
static double on_paint(const char *what, void (*call)(void), uint32_t number)
{
    memset(stack, PAINT, sizeof stack);
    getcontext(&inside);
    inside.uc_stack.ss_sp = stack;
    inside.uc_stack.ss_size = sizeof stack;
    inside.uc_link = &outside;
    makecontext(&inside, call, 0);
    double begun = seconds();
    swapcontext(&outside, &inside);
    double took = seconds() - begun;
    size_t untouched = 0;
    while (untouched < sizeof stack && stack[untouched] == PAINT) {
        untouched++;
    }
    size_t used = sizeof stack - untouched;
    most_stack = used > most_stack ? used : most_stack;
    if (answer.number != number) {
        fprintf(stderr, "%s: %" PRIu32 " and not %" PRIu32 "\n", what, answer.number, number);
        failures++;
    }
    return took;
}

/* The same of a call for a table. */
static void measure_call(const char *what, void (*call)(void), uint32_t number)
{
    double took = on_paint(what, call, number);
    double *longest = job.asked == 0 ? &longest_search : &longest_asked;
    *longest = took > *longest ? took : *longest;
}

/* The same for the job, or for the words where there are some. */
static void measure(const char *what, uint32_t number)
{
    measure_call(what, word_count != 0 ? plan_words : plan_job, number);
}

/* An axis from rest at 0 to rest at a position. */
static polgamir_axis to(int64_t position, uint32_t speed_limit, uint32_t acceleration_limit, uint32_t half_period)
{
    polgamir_axis axis = {0};
    axis.target_position = position;
    axis.speed_limit = speed_limit;
    axis.acceleration_limit = acceleration_limit;
    axis.half_period = half_period;
    axis.second_weight = 128;
    return axis;
}

/* The same on a pole with a second half period. */
static polgamir_axis jointed(polgamir_axis axis, uint32_t second_half_period)
{
    axis.second_sway_given = 1;
    axis.second_half_period = second_half_period;
    return axis;
}

/* An axis to a target that accelerates, on a damped pole for one axis and on an undamped one for
   the next. */
static polgamir_axis accelerating(unsigned i, int64_t position)
{
    polgamir_axis axis = to(position, 5000, 2, 4);
    axis.target_kind = POLGAMIR_MOVING;
    axis.target_acceleration = 1;
    axis.second_weight = i % 2 == 0 ? 100 : 128;
    return axis;
}

/* The same job from words, with positions from 0 up. */
static void as_words(void)
{
    word_count = 0;
    words[word_count++] = 0x10000000 | job.mask;
    words[word_count++] = 0x20000000 | job.asked;
    for (unsigned i = 0; i < POLGAMIR_AXES; i++) {
        words[word_count++] = 0x30000000;
        words[word_count++] = 0x40000000;
        words[word_count++] = 0x50000000 | job.axes[i].speed_limit;
        words[word_count++] = 0x60000000 | job.axes[i].acceleration_limit;
        words[word_count++] = 0x70000000 | job.axes[i].half_period;
        words[word_count++] = 0x80000000 | job.axes[i].second_weight;
        if (job.axes[i].second_sway_given != 0) {
            words[word_count++] = 0xD0000000 | job.axes[i].second_half_period;
        }
        words[word_count++] = 0x90000000 | (uint32_t)job.axes[i].target_position;
        words[word_count++] = 0xA0000000;
    }
    words[word_count++] = 0xF0000000;
}

/* The job, six axes alike but for their positions, typed and from words. */
static void both(const char *what, uint32_t asked, polgamir_axis axis, uint32_t number)
{
    job.mask = 63;
    job.asked = asked;
    for (unsigned i = 0; i < POLGAMIR_AXES; i++) {
        job.axes[i] = axis;
        job.axes[i].target_position += i;
    }
    word_count = 0;
    measure(what, number);
    as_words();
    measure(what, number);
    on_paint("backwards from words", plan_words_backwards, number);
    on_paint("raises from words", raises_words, number);
    on_paint("a search from words", search_words, number == 4 ? 4 : 0);
    on_paint("a conversion", convert, number == 4 ? 4 : 0);
    word_count = 0;
}

/* Every way through the library, and the longest calls. Gives back the most stack that a call
   took. */
static size_t run(void)
{
    most_stack = 0;
    longest_search = longest_asked = 0;
    both("a short table", 0, to(56, 10, 1, 4), 0);
    both("a late arrival", 0, to(2950000, 1000, 1, 40), 0);
    both("the largest table", 4096, to(70, 1048576, 1, 256), 0);
    both("the largest table on poles with a joint", 4096, jointed(to(70, 1048576, 1, 256), 256), 0);
    measure_call("the largest table backwards", plan_backwards, 0);
    both("an arrival too soon", 9, to(2950000, 1000, 1, 40), 8);
    both("an asked arrival out of reach", 4096, to(134217000, 32768, 1, 0), 8);
    both("a bad limit", 0, to(56, 0, 1, 4), 4);
    both("out of reach at a low speed", 0, to(100000000, 1, 1, 0), 9);
    both("out of reach at a high speed", 0, to(134217000, 32000, 1, 0), 9);
    both("out of reach on poles with a joint", 0, jointed(to(134217000, 32000, 1, 0), 1), 9);
    for (unsigned i = 0; i < POLGAMIR_AXES - 1; i++) {
        job.axes[i] = to(0, 1048576, 65536, 0);
    }
    measure("out of reach for the last axis", 9);
    for (unsigned i = 0; i < POLGAMIR_WINDOWS; i++) {
        job.windows.list[i] = (polgamir_window){.opening = 128 * i, .closing = 128 * (i + 1)};
    }
    job.windows.given = 1;
    job.windows.count = POLGAMIR_WINDOWS;
    measure("out of reach for the last axis, in windows", 9);
    on_paint("a search in windows", search_job, 0);
    job.windows.given = 0;
    for (unsigned i = 0; i < POLGAMIR_AXES; i++) {
        job.axes[i] = accelerating(i, 130000000);
    }
    measure("out of reach of targets that accelerate", 9);
    for (unsigned i = 0; i < POLGAMIR_AXES; i++) {
        job.axes[i] = accelerating(i, 0);
    }
    measure("a table beside targets that accelerate", 0);
    for (unsigned i = 0; i < POLGAMIR_AXES; i++) {
        job.axes[i] = to(2950000, 1000, 1, 40);
    }
    job.asked = 500;
    on_paint("raises", raises, 8);
    job.asked = 0;
    return most_stack;
}

/* A tour of 64 stops over six axes, out and back. Gives back the stack that it took. */
static size_t run_tour(void)
{
    tour.mask = 63;
    for (unsigned i = 0; i < POLGAMIR_AXES; i++) {
        tour.limits[i] = (polgamir_limits){.speed_limit = 10, .acceleration_limit = 1, .half_period = 4,
                                           .second_weight = 128};
        tour.limits[i].second_sway_given = i % 2;
        tour.limits[i].second_half_period = 3;
        for (unsigned j = 0; j < POLGAMIR_MOST_STOPS; j++) {
            stops[j].positions[i] = j % 2 == 0 ? 56 + i : 0;
        }
    }
    most_stack = 0;
    on_paint("a tour", plan_tour, 0);
    return most_stack;
}

int main(void)
{
    size_t first = run();
    size_t own = run();
    size_t toured = run_tour();
    printf("stack %zu bytes, on the first run %zu, of a tour %zu; longest search %.3f s, "
           "longest call with an asked arrival %.4f s\n", own, first, toured, longest_search, longest_asked);
    bool kept = own <= JOB_STACK && first <= POLGAMIR_STACK && toured <= TOUR_STACK && longest_search <= LONGEST_SEARCH
                && longest_asked <= LONGEST_ASKED;
    return kept && failures == 0 ? 0 : 1;
}
