/*
 * Plans a job from words as often as there are words after its file:
 *
 *     jobs FILE [WORD..]        # FILE is a job (NAME.job)
 *
 * So that the instructions of two runs tell those of a call. Prints the number
 * and the arrival of the last one.
 */
#include "platform.h"
#include "polgamir.h"

static uint32_t words[128];
static int64_t table[POLGAMIR_MOST_CELLS];

int program(int count, char **names)
{
    polgamir_answer answer = {0};
    long bytes = count > 0 ? load(names[0], (char *)words, sizeof words) : -1;
    if (bytes < 0) {
        say("the job cannot be read\n");
        return 1;
    }
    for (int i = 1; i < count; i++) {
        answer = polgamir_plan_words(words, (size_t)bytes / 4, table, POLGAMIR_MOST_CELLS);
    }
    say_number(answer.number);
    say(" ");
    say_number(answer.arrival);
    say("\n");
    return 0;
}
