/*
 * The calls of include/polgamir.h over those of the proved module, on every target but x86-64
 * Linux, where the toolchain's own archive has them. `tools/library --target` compiles this
 * file with the target's C compiler, so that how a struct is passed and returned is that
 * compiler's business. The module takes addresses and whole numbers alone: the place of the
 * answer first, a struct by its address, a count in 64 bits. It reads a struct during the call
 * and writes none but the answer.
 */
#include "layout.h"
#include "polgamir.h"

uint32_t polgamir_module_version(void);
void *polgamir_module_plan_words(polgamir_answer *, const uint32_t *, uint64_t, int64_t *, uint64_t);
void *polgamir_module_plan_words_backwards(polgamir_answer *, const uint32_t *, uint64_t, int64_t *, uint64_t);
void *polgamir_module_plan_words_part(polgamir_part_answer *, const uint32_t *, uint64_t, uint32_t, int64_t *,
                                      uint64_t);
void *polgamir_module_plan_job(polgamir_answer *, const polgamir_job *, int64_t *, uint64_t);
void *polgamir_module_plan_job_backwards(polgamir_answer *, const polgamir_job *, int64_t *, uint64_t);
void *polgamir_module_plan_job_part(polgamir_part_answer *, const polgamir_job *, uint32_t, int64_t *, uint64_t);
void *polgamir_module_plan_tour(polgamir_tour_answer *, const polgamir_tour *, const polgamir_stop *, uint64_t,
                                uint32_t *, uint64_t);
void *polgamir_module_raises_job(polgamir_raises *, const polgamir_job *);
void *polgamir_module_raises_words(polgamir_raises *, const uint32_t *, uint64_t);
void *polgamir_module_convert(polgamir_answer *, const uint32_t *, uint64_t, uint32_t *, uint64_t);
void *polgamir_module_search_job(polgamir_search_answer *, const polgamir_job *, uint32_t, uint32_t);
void *polgamir_module_search_words(polgamir_search_answer *, const uint32_t *, uint64_t, uint32_t, uint32_t);

uint32_t polgamir_version(void)
{
    return polgamir_module_version();
}

polgamir_answer polgamir_plan_words(const uint32_t *words, size_t word_count, int64_t *table, size_t table_cells)
{
    polgamir_answer answer;
    polgamir_module_plan_words(&answer, words, word_count, table, table_cells);
    return answer;
}

polgamir_answer polgamir_plan_words_backwards(const uint32_t *words, size_t word_count, int64_t *table,
                                              size_t table_cells)
{
    polgamir_answer answer;
    polgamir_module_plan_words_backwards(&answer, words, word_count, table, table_cells);
    return answer;
}

polgamir_part_answer polgamir_plan_words_part(const uint32_t *words, size_t word_count, uint32_t first, int64_t *table,
                                              size_t table_cells)
{
    polgamir_part_answer answer;
    polgamir_module_plan_words_part(&answer, words, word_count, first, table, table_cells);
    return answer;
}

polgamir_answer polgamir_plan_job(polgamir_job job, int64_t *table, size_t table_cells)
{
    polgamir_answer answer;
    polgamir_module_plan_job(&answer, &job, table, table_cells);
    return answer;
}

polgamir_answer polgamir_plan_job_backwards(polgamir_job job, int64_t *table, size_t table_cells)
{
    polgamir_answer answer;
    polgamir_module_plan_job_backwards(&answer, &job, table, table_cells);
    return answer;
}

polgamir_part_answer polgamir_plan_job_part(polgamir_job job, uint32_t first, int64_t *table, size_t table_cells)
{
    polgamir_part_answer answer;
    polgamir_module_plan_job_part(&answer, &job, first, table, table_cells);
    return answer;
}

polgamir_tour_answer polgamir_plan_tour(polgamir_tour tour, const polgamir_stop *stops, size_t stop_count,
                                        uint32_t *arrivals,
                                        size_t list_entries)
{
    polgamir_tour_answer answer;
    polgamir_module_plan_tour(&answer, &tour, stops, stop_count, arrivals, list_entries);
    return answer;
}

polgamir_raises polgamir_raises_job(polgamir_job job)
{
    polgamir_raises raises;
    polgamir_module_raises_job(&raises, &job);
    return raises;
}

polgamir_raises polgamir_raises_words(const uint32_t *words, size_t word_count)
{
    polgamir_raises raises;
    polgamir_module_raises_words(&raises, words, word_count);
    return raises;
}

polgamir_answer polgamir_convert(const uint32_t *words, size_t word_count, uint32_t *lent, size_t lent_count)
{
    polgamir_answer answer;
    polgamir_module_convert(&answer, words, word_count, lent, lent_count);
    return answer;
}

polgamir_search_answer polgamir_search_job(polgamir_job job, uint32_t first, uint32_t budget)
{
    polgamir_search_answer answer;
    polgamir_module_search_job(&answer, &job, first, budget);
    return answer;
}

polgamir_search_answer polgamir_search_words(const uint32_t *words, size_t word_count, uint32_t first, uint32_t budget)
{
    polgamir_search_answer answer;
    polgamir_module_search_words(&answer, words, word_count, first, budget);
    return answer;
}
