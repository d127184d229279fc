/*
 * include/polgamir.h in C++, with tables and words in vectors: an empty one hands
 * over a null pointer with count 0. Prints nothing and returns 0 where the answers
 * are those of the header's list.
 */
#include <cstdint>
#include <vector>

#include "polgamir.h"

int main()
{
    /* From rest at 0 to rest at 1, asked to arrive at tick 4. */
    polgamir_job job{};
    job.mask = 1;
    job.asked = 4;
    job.axes[0].target_position = 1;
    job.axes[0].speed_limit = 10;
    job.axes[0].acceleration_limit = 1;
    job.axes[0].second_weight = 128;

    std::vector<std::int64_t> table;
    polgamir_answer answer = polgamir_plan_job(job, table.data(), table.size());
    if (answer.number != POLGAMIR_REFUSED_TABLE_TOO_SHORT || answer.arrival != 4) {
        return 1;
    }
    table.resize(polgamir_cells_needed(polgamir_axis_count(job.mask), answer.arrival));
    answer = polgamir_plan_job(job, table.data(), table.size());
    const std::vector<std::int64_t> rows{0, 0, 86, 43, 86, -1, 129, 85, 0, 214, 85, -85, 256, 0, 0};
    if (answer.number != POLGAMIR_ACCEPTED || table != rows) {
        return 1;
    }
    if (polgamir_row(table.data(), answer.mask, 3, 0)[2] != -85
        || polgamir_row(table.data(), answer.mask, 3, 1) != nullptr) {
        return 1;
    }

    /* Every struct is empty as it is written here, without a warning about fields that are not
       said. */
    const polgamir_stop stop{};
    const polgamir_tour tour{};
    std::vector<std::uint32_t> arrivals(1);
    const polgamir_tour_answer toured = polgamir_plan_tour(tour, &stop, 1, arrivals.data(), arrivals.size());
    if (toured.number != POLGAMIR_REFUSED_MASK || !polgamir_library_fits()) {
        return 1;
    }

    const std::vector<std::uint32_t> words;
    answer = polgamir_plan_words(words.data(), words.size(), table.data(), table.size());
    return answer.number == POLGAMIR_REFUSED_MASK && table == rows ? 0 : 1;
}
