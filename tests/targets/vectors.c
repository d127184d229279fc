/*
 * Runs the library over files of tests/reference/vectors, and over jobs with
 * their stored texts, on any target:
 *
 *     vectors FILE..        # FILE is a file of vectors, or a job (NAME.job), whose text stands
 *                           beside it
 *
 * What is expected was worked out by the reference. Prints the cases that fail, the stack that
 * each call took at most and the number of cases, and ends with status 0 where none fails and
 * every call of the header was made.
 */
#include "cases.h"
#include "platform.h"

static char file[1 << 20], stored[1 << 18];
static unsigned long cases, failures;

static void say_part(struct text text)
{
    char letter[2] = {0};
    for (; text.at < text.end; text.at++) {
        letter[0] = *text.at;
        say(letter);
    }
}

/* The digits of a number, in a place that the next call writes anew. */
static const char *digits(int64_t number)
{
    static char place[24];
    char *at = place + sizeof place - 1;
    uint64_t left = number < 0 ? 0 - (uint64_t)number : (uint64_t)number;
    do {
        *--at = (char)('0' + left % 10);
        left /= 10;
    } while (left != 0);
    if (number < 0) {
        *--at = '-';
    }
    return at;
}

/* Counts a case, and says what is wrong with it. */
static void done(struct text name)
{
    cases++;
    if (problem != NULL) {
        failures++;
        say_part(name);
        say(": ");
        say(problem);
        say("\n");
    }
    problem = NULL;
}

static void run_call(struct text *call, struct text *expected)
{
    struct text what = token(call);
    if (is(what, "plan") || is(what, "backwards")) {
        run_plan(call, expected, is(what, "plan") ? PLAN : BACKWARDS);
    } else if (is(what, "part")) {
        run_part(call, expected);
    } else if (is(what, "tour")) {
        run_tour(call, expected);
    } else if (is(what, "raises")) {
        run_raises(call, expected);
    } else if (is(what, "convert")) {
        run_convert(call, expected);
    } else {
        expect(is(what, "search"), "this test knows no such call");
        run_search(call, expected);
    }
}

/* The part of a line before " | ", which is taken off it. */
static struct text before_bar(struct text *line)
{
    struct text part = {line->at, line->at};
    while (part.end < line->end && *part.end != '|') {
        part.end++;
    }
    line->at = part.end < line->end ? part.end + 1 : part.end;
    return part;
}

/* A name, a call and what is expected of it, each read to its end. */
static void run_line(struct text line)
{
    struct text name = before_bar(&line), call = before_bar(&line), expected = line;
    run_call(&call, &expected);
    while (call.at < call.end && *call.at == ' ') {
        call.at++;
    }
    expect(call.at == call.end && expected.at == expected.end, "tokens are left over");
    done(name);
}

static void run_vectors(struct text all)
{
    while (all.at < all.end) {
        struct text line = {all.at, all.at};
        while (line.end < all.end && *line.end != '\n') {
            line.end++;
        }
        all.at = line.end + 1;
        if (line.at < line.end && *line.at != '#') {
            run_line(line);
        }
    }
}

/* ---- a job with its text, as the table program prints it */

static void follows(struct text *text, const char *wanted)
{
    while (*wanted != '\0' && text->at < text->end && *text->at == *wanted) {
        text->at++;
        wanted++;
    }
    expect(*wanted == '\0', "the stored text is another one");
}

static void follows_number(struct text *text, const char *before, int64_t number)
{
    follows(text, before);
    follows(text, digits(number));
}

static void check_text(struct text text)
{
    size_t width = 3 * (size_t)polgamir_axis_count(answer.mask);
    if (answer.number == POLGAMIR_ACCEPTED) {
        follows_number(&text, "arrival ", answer.arrival);
    } else {
        follows_number(&text, "refused ", answer.number);
        follows_number(&text, " place ", (int64_t)answer.place);
        follows_number(&text, " axes ", answer.mask);
        follows_number(&text, " arrival ", answer.arrival);
    }
    for (size_t tick = 0; answer.number == POLGAMIR_ACCEPTED && tick <= answer.arrival && problem == NULL; tick++) {
        follows_number(&text, "\n", (int64_t)tick);
        for (size_t i = 0; i < width; i++) {
            follows_number(&text, " ", table[width * tick + i]);
        }
    }
    follows(&text, "\n");
    expect(text.at == text.end, "the stored text is longer");
}

/* The words of `file`, which has the name's bytes, and the text that stands beside it. */
static void run_job_file(char *name, size_t name_length, long bytes)
{
    struct text whole = {name, name + name_length};
    memcpy(name + name_length - 4, ".txt", 4);
    long length = load(name, stored, sizeof stored);
    expect(length >= 0, "its text cannot be read");
    expect(bytes % 4 == 0 && bytes <= 4 * MOST_WORDS, "a job is words of four bytes");
    if (problem == NULL) {
        memcpy(words, file, (size_t)bytes);
        word_count = (size_t)bytes / 4;
        lent = POLGAMIR_MOST_CELLS;
        make(PLAN);
        check_text((struct text){stored, stored + length});
    }
    done(whole);
}

/* Every call was made, and the version is the header's. */
static void run_calls(void)
{
    make(VERSION);
    expect(version == POLGAMIR_VERSION, "the version is another one");
    for (int call = 0; call < CALLS; call++) {
        expect(made[call], "a call of the header was not made");
    }
    const char *all = "all calls";
    done((struct text){all, all + strlen(all)});
}

static void run_file(char *name)
{
    size_t length = strlen(name);
    long bytes = load(name, file, sizeof file);
    if (bytes < 0) {
        say(name);
        say(": cannot be read\n");
        failures++;
    } else if (length > 4 && memcmp(name + length - 4, ".job", 4) == 0) {
        run_job_file(name, length, bytes);
    } else {
        run_vectors((struct text){file, file + bytes});
    }
}

int program(int count, char **names)
{
    for (int i = 0; i < count; i++) {
        run_file(names[i]);
    }
    run_calls();
    for (int call = 0; call < CALLS; call++) {
        say("stack ");
        say_number((int64_t)most_stack[call]);
        say(" ");
        say(name_of[call]);
        say("\n");
    }
    say_number((int64_t)cases);
    say(" cases, ");
    say_number((int64_t)failures);
    say(" failed\n");
    return failures == 0 ? 0 : 1;
}
