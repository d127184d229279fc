/*
 * Reads a line of tests/reference/vectors, as the README there describes it, without a C library.
 * `problem` says what is wrong with the line, or with what came of it; the first thing counts.
 */
#ifndef READING_H
#define READING_H

#include <stdint.h>
#include "platform.h"

#include "polgamir.h"

static const char *problem;

static void expect(int holds, const char *what)
{
    if (!holds && problem == NULL) {
        problem = what;
    }
}

/* What is left to read. */
struct text {
    const char *at;
    const char *end;
};

/* The next token, up to a space or the end. */
static struct text token(struct text *text)
{
    while (text->at < text->end && *text->at == ' ') {
        text->at++;
    }
    struct text found = {text->at, text->at};
    while (found.end < text->end && *found.end != ' ') {
        found.end++;
    }
    text->at = found.end;
    expect(found.at < found.end, "a token is lacking");
    return found;
}

static int is(struct text found, const char *word)
{
    size_t length = (size_t)(found.end - found.at);
    size_t i = 0;
    while (i < length && word[i] == found.at[i]) {
        i++;
    }
    return i == length && word[i] == '\0';
}

static void keyword(struct text *text, const char *word)
{
    expect(is(token(text), word), "another word was expected");
}

/* Digits to a base, with a sign before them or none. */
static uint64_t value(struct text digits, unsigned base)
{
    uint64_t sum = 0;
    int negative = digits.at < digits.end && *digits.at == '-';
    expect(digits.end - digits.at > negative, "a number was expected");
    for (const char *at = digits.at + negative; at < digits.end; at++) {
        unsigned digit = *at <= '9' ? (unsigned)(*at - '0') : (unsigned)(*at - 'A') + 10;
        expect(digit < base, "a digit was expected");
        sum = base * sum + digit;
    }
    return negative ? 0 - sum : sum;
}

static uint64_t number(struct text *text)
{
    return value(token(text), 10);
}

static uint32_t hex(struct text *text)
{
    return (uint32_t)value(token(text), 16);
}

/* A job as it is given to a call. */
#define MOST_WORDS 256
static int by_words;
static uint32_t words[MOST_WORDS];
static size_t word_count;
static polgamir_job job;

static void read_words(struct text *text)
{
    word_count = (size_t)number(text);
    expect(word_count <= MOST_WORDS, "too many words for this test");
    for (size_t i = 0; i < word_count && problem == NULL; i++) {
        words[i] = hex(text);
    }
}

static void read_windows(struct text *text)
{
    struct text found = token(text);
    if (is(found, "none")) {
        return;
    }
    expect(is(found, "windows"), "windows or none was expected");
    job.windows.given = 1;
    job.windows.dwell = (uint32_t)number(text);
    job.windows.count = number(text);
    for (uint64_t i = 0; i < job.windows.count && problem == NULL; i++) {
        polgamir_window window;
        window.opening = (uint32_t)number(text);
        window.closing = (uint32_t)number(text);
        if (i < POLGAMIR_WINDOWS) {
            job.windows.list[i] = window;
        }
    }
}

/* The float with these bits, which no register of floats sees. */
static void read_single(struct text *text, float *to)
{
    uint32_t bits = hex(text);
    memcpy(to, &bits, sizeof *to);
}

/* The limits, the blend and the sways of an axis. */
static polgamir_limits read_limits(struct text *text)
{
    polgamir_limits limits = {0};
    limits.speed_limit = (uint32_t)number(text);
    limits.acceleration_limit = (uint32_t)number(text);
    limits.half_period = (uint32_t)number(text);
    struct text kind = token(text);
    if (is(kind, "weight")) {
        limits.second_weight = (uint32_t)number(text);
    } else if (is(kind, "ratio")) {
        limits.damping_kind = POLGAMIR_RATIO;
        read_single(text, &limits.swing_ratio);
    } else {
        expect(is(kind, "peaks"), "a damping was expected");
        limits.damping_kind = POLGAMIR_PEAKS;
        read_single(text, &limits.first_peak);
        read_single(text, &limits.second_peak);
    }
    struct text sway = token(text);
    if (is(sway, "second")) {
        limits.second_sway_given = 1;
        limits.second_half_period = (uint32_t)number(text);
    } else {
        expect(is(sway, "single"), "single or second was expected");
    }
    return limits;
}

/* The bit that `axis BIT` says. */
static size_t read_bit(struct text *text)
{
    keyword(text, "axis");
    size_t bit = (size_t)number(text);
    expect(bit < POLGAMIR_AXES, "an axis was expected");
    return bit < POLGAMIR_AXES ? bit : 0;
}

static void read_axis(struct text *text)
{
    polgamir_axis *axis = &job.axes[read_bit(text)];
    axis->start_position = (int64_t)number(text);
    axis->start_velocity = (int64_t)number(text);
    polgamir_limits limits = read_limits(text);
    axis->speed_limit = limits.speed_limit;
    axis->acceleration_limit = limits.acceleration_limit;
    axis->half_period = limits.half_period;
    axis->damping_kind = limits.damping_kind;
    axis->second_weight = limits.second_weight;
    memcpy(&axis->swing_ratio, &limits.swing_ratio, 3 * sizeof(float)); /* and both peaks, whatever their bits */
    axis->second_sway_given = limits.second_sway_given;
    axis->second_half_period = limits.second_half_period;
    struct text kind = token(text);
    axis->target_kind = is(kind, "moving") ? POLGAMIR_MOVING : POLGAMIR_FIXED;
    expect(is(kind, "moving") || is(kind, "fixed"), "a target was expected");
    axis->target_position = (int64_t)number(text);
    axis->target_velocity = (int64_t)number(text);
    if (axis->target_kind == POLGAMIR_MOVING) {
        axis->target_acceleration = (int64_t)number(text);
        axis->target_tick = (int64_t)number(text);
    }
}

static void read_job(struct text *text)
{
    struct text kind = token(text);
    by_words = is(kind, "words");
    if (by_words) {
        read_words(text);
        return;
    }
    expect(is(kind, "typed"), "a job was expected");
    memset(&job, 0, sizeof job);
    job.mask = (uint32_t)number(text);
    job.asked = (uint32_t)number(text);
    read_windows(text);
    for (uint64_t axes = number(text); axes > 0 && problem == NULL; axes--) {
        read_axis(text);
    }
}

#endif
