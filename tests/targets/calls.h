/*
 * The calls of the header, each over what a case has read and with what it gives back kept, and the
 * stack that each of them takes: the memory below is painted before a call, and how far down the
 * paint is gone says what it took, with its arguments.
 */
#ifndef CALLS_H
#define CALLS_H

#include "reading.h"

#define MOST_LENT (POLGAMIR_MOST_CELLS + 64)
#define MOST_ENTRIES 256

/* What is lent, and what stands in it before a call. */
#define CELL (-1234567890123)
#define ENTRY 987654321u
#define WORD 0xDEADBEEFu
static int64_t table[MOST_LENT];
static uint32_t list[MOST_ENTRIES];
static size_t lent;

/* What else a call takes, and what it gives back. */
static uint32_t first, budget;
static polgamir_tour tour;
static polgamir_stop stops[MOST_ENTRIES];
static size_t stop_count;
static polgamir_answer answer;
static polgamir_part_answer part;
static polgamir_tour_answer toured;
static polgamir_raises raises;
static polgamir_search_answer searched;
static uint32_t version;

static void plan_words(void) { answer = polgamir_plan_words(words, word_count, table, lent); }
static void plan_job(void) { answer = polgamir_plan_job(job, table, lent); }
static void backwards_words(void) { answer = polgamir_plan_words_backwards(words, word_count, table, lent); }
static void backwards_job(void) { answer = polgamir_plan_job_backwards(job, table, lent); }
static void part_words(void) { part = polgamir_plan_words_part(words, word_count, first, table, lent); }
static void part_job(void) { part = polgamir_plan_job_part(job, first, table, lent); }
static void plan_tour(void) { toured = polgamir_plan_tour(tour, stops, stop_count, list, lent); }
static void raises_words(void) { raises = polgamir_raises_words(words, word_count); }
static void raises_job(void) { raises = polgamir_raises_job(job); }
static void convert(void) { answer = polgamir_convert(words, word_count, list, lent); }
static void search_words(void) { searched = polgamir_search_words(words, word_count, first, budget); }
static void search_job(void) { searched = polgamir_search_job(job, first, budget); }
static void ask_version(void) { version = polgamir_version(); }

/* A call for words comes right before the same call for typed values. */
enum { PLAN = 0, BACKWARDS = 2, PART = 4, RAISES = 6, SEARCH = 8, CONVERT = 10, TOUR = 11, VERSION = 12, CALLS = 13 };
static void (*const call_of[CALLS])(void) = {
    plan_words, plan_job, backwards_words, backwards_job, part_words, part_job, raises_words, raises_job, search_words,
        search_job,
    convert, plan_tour, ask_version,
};
static const char *const name_of[CALLS] = {
    "polgamir_plan_words", "polgamir_plan_job", "polgamir_plan_words_backwards", "polgamir_plan_job_backwards",
        "polgamir_plan_words_part",
    "polgamir_plan_job_part", "polgamir_raises_words", "polgamir_raises_job", "polgamir_search_words",
        "polgamir_search_job",
    "polgamir_convert", "polgamir_plan_tour", "polgamir_version",
};
static int made[CALLS];
static size_t most_stack[CALLS];

/* Words below the frame of `make`: more than any call takes. The nearest are left to the
   functions that paint and look. */
#define PAINTED 10000
#define NEAREST 64
#define PAINT 0xA5C3A5C3u

__attribute__((noinline)) static void paint(volatile uint32_t *top)
{
    for (size_t i = NEAREST; i < PAINTED; i++) {
        top[-(ptrdiff_t)i] = PAINT;
    }
}

/* The bytes below `top` that are not painted any more. */
__attribute__((noinline)) static size_t worn(volatile uint32_t *top)
{
    size_t deepest = PAINTED - 1;
    while (deepest > NEAREST && top[-(ptrdiff_t)deepest] == PAINT) {
        deepest--;
    }
    return deepest * sizeof *top;
}

/* Makes a call, unless something is wrong with the case. */
__attribute__((noinline)) static void make(int call)
{
    volatile uint32_t *top = (volatile uint32_t *)((uintptr_t)__builtin_frame_address(0) & ~(uintptr_t)7);
    if (problem != NULL) {
        return;
    }
    paint(top);
    call_of[call]();
    size_t bytes = worn(top);
    expect(bytes < 4 * (PAINTED - 1), "a call takes more stack than is painted");
    most_stack[call] = bytes > most_stack[call] ? bytes : most_stack[call];
    made[call] = 1;
}

#endif
