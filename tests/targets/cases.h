/*
 * Makes the call of a case and compares what comes of it with what is expected. Every cell, entry
 * and word that is lent is looked at after the call, and some that are not lent behind them.
 */
#ifndef CASES_H
#define CASES_H

#include "calls.h"

/* Lends cells; those behind them are looked at too. */
static void lend(uint64_t cells)
{
    expect(cells <= MOST_LENT, "too many cells for this test");
    lent = cells <= MOST_LENT ? (size_t)cells : 0;
    for (size_t i = 0; i < MOST_LENT && i < lent + 64; i++) {
        table[i] = CELL;
    }
}

/* Lends entries or words of the list. */
static void lend_list(uint64_t entries, uint32_t untouched)
{
    expect(entries <= MOST_ENTRIES, "too many entries for this test");
    lent = entries <= MOST_ENTRIES ? (size_t)entries : 0;
    for (size_t i = 0; i < MOST_ENTRIES; i++) {
        list[i] = untouched;
    }
}

/* A field that is expected; '-' is one that the method leaves free. */
static void field(struct text *expected, uint64_t got, const char *what)
{
    struct text wanted = token(expected);
    expect(is(wanted, "-") || value(wanted, 10) == got, what);
}

static void check_answer(struct text *expected, polgamir_answer got)
{
    keyword(expected, "answer");
    field(expected, got.number, "the number");
    field(expected, got.place, "the place");
    field(expected, got.mask, "the mask");
    field(expected, got.arrival, "the arrival");
}

/* The cells: how many are written, their sum, some of them, and the others as they were. */
static void check_table(struct text *expected)
{
    const uint64_t prime = 2147483647;
    keyword(expected, "table");
    size_t written = (size_t)number(expected);
    uint64_t wanted = number(expected), sum = 0;
    expect(written <= lent, "more cells than are lent");
    for (size_t i = 0; i < written && problem == NULL; i++) {
        uint64_t size = table[i] < 0 ? 0 - (uint64_t)table[i] : (uint64_t)table[i];
        sum = (31 * sum + 2 * (size % prime) + (table[i] < 0)) % prime;
    }
    expect(sum == wanted, "the sum of the cells");
    for (uint64_t count = number(expected); count > 0 && problem == NULL; count--) {
        size_t index = (size_t)number(expected);
        expect(index < written && table[index] == (int64_t)number(expected), "a cell");
    }
    for (size_t i = written; i < MOST_LENT && i < lent + 64; i++) {
        expect(table[i] == CELL, "a cell that is not to be written");
    }
}

/* The call for words, or the one for typed values. */
static void make_by(int call)
{
    make(by_words ? call : call + 1);
}

static void run_plan(struct text *call, struct text *expected, int kind)
{
    lend(number(call));
    read_job(call);
    make_by(kind);
    check_answer(expected, answer);
    check_table(expected);
}

static void run_part(struct text *call, struct text *expected)
{
    first = (uint32_t)number(call);
    lend(number(call));
    read_job(call);
    make_by(PART);
    check_answer(expected, (polgamir_answer){part.number, part.mask, part.place, part.arrival});
    keyword(expected, "rows");
    field(expected, part.rows, "the rows");
    check_table(expected);
}

static void read_tour(struct text *call)
{
    memset(&tour, 0, sizeof tour);
    tour.mask = (uint32_t)number(call);
    for (uint64_t axes = number(call); axes > 0 && problem == NULL; axes--) {
        size_t bit = read_bit(call);
        tour.start[bit] = (int64_t)number(call);
        tour.limits[bit] = read_limits(call);
    }
    stop_count = (size_t)number(call);
    expect(stop_count <= MOST_ENTRIES, "too many stops for this test");
    for (size_t i = 0; i < stop_count && problem == NULL; i++) {
        keyword(call, "stop");
        for (size_t axis = 0; axis < POLGAMIR_AXES; axis++) {
            stops[i].positions[axis] = (int64_t)number(call);
        }
        stops[i].dwell = (uint32_t)number(call);
    }
}

/* The numbers that are written to the list, each to a base, and the others as they were. */
static void check_list(struct text *expected, unsigned base, uint32_t untouched)
{
    size_t written = (size_t)number(expected);
    expect(written <= lent, "more entries than are lent");
    for (size_t i = 0; i < MOST_ENTRIES && problem == NULL; i++) {
        expect(list[i] == (i < written ? (uint32_t)value(token(expected), base) : untouched), "an entry of the list");
    }
}

static void run_tour(struct text *call, struct text *expected)
{
    lend_list(number(call), ENTRY);
    read_tour(call);
    make(TOUR);
    check_answer(expected, (polgamir_answer){toured.number, toured.mask, toured.place, toured.arrival});
    keyword(expected, "total");
    field(expected, toured.total, "the total");
    keyword(expected, "list");
    check_list(expected, 10, ENTRY);
}

static void check_raise(struct text *expected, polgamir_raise raise, int listed)
{
    if (!listed) {
        expect(raise.limit == POLGAMIR_NO_LIMIT && raise.by == 0, "a raise that is not expected");
        return;
    }
    struct text limit = token(expected);
    expect(raise.limit == (is(limit, "M") ? POLGAMIR_ACCELERATION_LIMIT : POLGAMIR_SPEED_LIMIT),
           "the limit of a raise");
    field(expected, raise.by, "a raise");
}

static void run_raises(struct text *call, struct text *expected)
{
    read_job(call);
    make_by(RAISES);
    check_answer(expected, raises.answer);
    keyword(expected, "raises");
    uint64_t axes = number(expected);
    for (size_t axis = 0, next = 0; axis < POLGAMIR_AXES && problem == NULL; axis++) {
        struct text ahead = *expected;
        int listed = next < axes && read_bit(&ahead) == axis;
        uint64_t count = 0;
        if (listed) {
            *expected = ahead;
            count = number(expected);
            next++;
        }
        check_raise(expected, raises.axes[axis].first, count > 0);
        check_raise(expected, raises.axes[axis].second, count > 1);
        expect(axis + 1 < POLGAMIR_AXES || next == axes, "raises of another axis");
    }
}

static void run_convert(struct text *call, struct text *expected)
{
    lend_list(number(call), WORD);
    keyword(call, "words");
    read_words(call);
    make(CONVERT);
    check_answer(expected, answer);
    keyword(expected, "words");
    check_list(expected, 16, WORD);
}

static void run_search(struct text *call, struct text *expected)
{
    first = (uint32_t)number(call);
    budget = (uint32_t)number(call);
    read_job(call);
    make_by(SEARCH);
    if (searched.number != 0) {
        check_answer(expected, (polgamir_answer){searched.number, searched.mask, searched.place, searched.arrival});
        return;
    }
    struct text report = token(expected);
    expect(is(report, searched.report == POLGAMIR_FOUND ? "found" : searched.report == POLGAMIR_SPENT ? "spent"
              : "none"), "the report");
    if (searched.report != POLGAMIR_NONE) {
        field(expected, searched.report == POLGAMIR_FOUND ? searched.arrival : searched.next, "the tick");
    }
    field(expected, searched.tried, "the candidates tried");
}

#endif
