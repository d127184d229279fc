#!/usr/bin/env python3
"""Writes cases with what the reference expects of each as files of lines, for
tests that call the library from outside. README.md describes a line.

    python3 tests/reference/make_vectors.py            # writes tests/reference/vectors/*.txt
    python3 tests/reference/make_vectors.py --check    # whether they are what it would write
"""

import os
import sys
from typing import List, Optional

import backwardcases
import cases
import convertcases
import dampingcases
import make_fieldcases
import partcases
import raisecases
import searchcases
import swaycases
from builders import UNSET, UNTOUCHED, Case, outcome, sum_of
from damping import Peaks, Ratio
from raises import AxisRaises
from reference import Answer, Axis, State, Windows
from search import Found, Nothing, Report
from spelledcases import bracketed, in_values, other_spelling, respelled
from tourcases import UNSET as UNSET_IN_TOUR, TourCase

FOLDER = os.path.join(os.path.dirname(os.path.abspath(__file__)), 'vectors')


def text(*parts) -> str:
    """Tokens with a space between them; None is a field that the method leaves free."""
    return ' '.join('-' if part is None else str(part) for part in parts if part != '')


# --- Calls -----------------------------------------------------------------

def weight_text(weight) -> str:
    if isinstance(weight, Ratio):
        return 'ratio %08X' % weight.ratio
    if isinstance(weight, Peaks):
        return 'peaks %08X %08X' % weight
    return 'weight %d' % weight


def sway_text(second: Optional[int]) -> str:
    return 'single' if second is None else 'second %d' % second


def axis_text(bit: int, axis: Axis) -> str:
    kind = 'moving' if isinstance(axis.target, State) else 'fixed'
    return text('axis', bit, *axis.start, axis.speed_limit, axis.acceleration_limit, axis.half_period,
                weight_text(axis.second_weight), sway_text(axis.second_half_period), kind, *axis.target)


def windows_text(windows: Optional[Windows]) -> str:
    if windows is None:
        return 'none'
    return text('windows', windows.dwell, len(windows.pairs), *(tick for pair in windows.pairs for tick in pair))


def words_text(words: List[int]) -> str:
    return text('words', len(words), *('%08X' % word for word in words))


def listed_text(entries: List[str]) -> str:
    """Their count, and they themselves."""
    return text(len(entries), *entries)


def job_text(case: Case) -> str:
    if case.words is not None:
        return words_text(case.words)
    axes = [axis_text(bit, axis) for bit, axis in enumerate(case.axes) if axis != UNSET]
    return text('typed', case.mask, case.asked, windows_text(case.windows), listed_text(axes))


def tour_axis_text(bit: int, axis) -> str:
    return text('axis', bit, *axis[:4], weight_text(axis.second_weight), sway_text(axis.second_half_period))


def tour_text(case: TourCase) -> str:
    axes = [tour_axis_text(bit, axis) for bit, axis in enumerate(case.tour.axes) if axis != UNSET_IN_TOUR]
    stops = [text('stop', *stop.positions, stop.dwell) for stop in case.tour.stops]
    return text('tour', len(case.lent), case.tour.mask, listed_text(axes), listed_text(stops))


# --- What is expected ------------------------------------------------------

def answer_text(answer: Answer) -> str:
    return text('answer', *answer[:4])


def rows_listed(answer: Answer) -> List[int]:
    """The indices of some cells of a table: all of a small one, else those of
    row 1, of a row in the middle and of the last row, for the first axis and
    for the last."""
    width = 3 * bin(answer.mask).count('1')
    need = width * (answer.arrival + 1)
    if need <= 18:
        return list(range(need))
    indices = []
    for row in (1, answer.arrival // 2, answer.arrival):
        ends = {row * width, row * width + width - 3}
        indices += [first + k for first in sorted(ends) for k in range(3)]
    return indices


def table_text(answer: Answer, cells: List[int]) -> str:
    """The cells written, the sum over them, and some of them."""
    written = 3 * bin(answer.mask).count('1') * (answer.arrival + 1) if answer.number == 0 else 0
    listed = rows_listed(answer) if written else []
    return text(answer_text(answer), 'table', written, sum_of(cells[:written]), len(listed),
                *('%d %d' % (i, cells[i]) for i in listed))


def plan_line(case: Case, call: str = 'plan', planned=outcome) -> str:
    answer, cells = planned(case, [UNTOUCHED] * case.lent)
    return '%s | %s | %s' % (case.name, text(call, case.lent, job_text(case)), table_text(answer, cells))


def tour_line(case: TourCase) -> str:
    total, written = case.answer.total, len(case.tour.stops) if case.answer.number == 0 else 0
    return '%s | %s | %s' % (case.name, tour_text(case), text(
        answer_text(case.answer), 'total', total, 'list', listed_text(case.left[:written])))


def axis_raises_text(one: AxisRaises) -> str:
    return text('axis', one.bit, listed_text([text(*x) for x in one.raises]))


def raises_line(case: Case) -> str:
    answer, axes = raisecases.raised(case)
    return '%s | %s | %s' % (case.name, text('raises', job_text(case)), text(
        answer_text(answer), 'raises', listed_text([axis_raises_text(one) for one in axes])))


def convert_line(case: convertcases.ConvertCase) -> str:
    written = case.answer.place if case.answer.number == 0 else 0
    return '%s | %s | %s' % (case.name, text('convert', case.lent, words_text(case.words)),
                             text(answer_text(case.answer), words_text(case.left[:written])))


def report_text(report: Report) -> str:
    if isinstance(report, Answer):
        return answer_text(report)
    return text('found' if isinstance(report, Found) else 'none' if isinstance(report, Nothing) else 'spent', *report)


def search_line(case: searchcases.SearchCase) -> str:
    return '%s | %s | %s' % (case.job.name, text('search', case.first, case.budget, job_text(case.job)),
                             report_text(searchcases.searched(case)))


def part_line(case: partcases.PartCase) -> str:
    """All cells that are written are listed where they are few, else the first and the last row."""
    one = case.job
    part = partcases.parted(case, [UNTOUCHED] * one.lent)
    width = 3 * bin(part.answer.mask).count('1') if part.answer.number == 0 else 0
    written = width * part.rows
    listed = range(written) if written <= 36 else [*range(width), *range(written - width, written)]
    return '%s | %s | %s' % (one.name, text('part', case.first, one.lent, job_text(one)), text(
        answer_text(part.answer), 'rows', part.rows, 'table', written, sum_of(part.cells[:written]), len(listed),
        *('%d %d' % (i, part.cells[i]) for i in listed)))


# --- Files -----------------------------------------------------------------

def jobs_of(*groups) -> List[Case]:
    return [case for group in groups for case in group.cases]


def group_lines(*groups) -> List[str]:
    return [plan_line(case) for case in jobs_of(*groups)]


def with_more(lines: List[str], more: List[str]) -> List[str]:
    """With those whose call is not among the lines before it."""
    calls, lines = {line.split(' | ')[1] for line in lines}, list(lines)
    for line in more:
        call = line.split(' | ')[1]
        if call not in calls:
            calls.add(call)
            lines.append(line)
    return lines


def plan_jobs() -> List[Case]:
    return jobs_of(cases.field(), cases.readings(), cases.accepted(), cases.corrected(), cases.refused_words(),
                   cases.refused_values(), cases.hostile(), cases.mirrors(), cases.drawn())


def spelled_lines() -> List[str]:
    """The jobs of the files of tables in their other spelling: nothing that these have."""
    jobs = plan_jobs() + jobs_of(
        cases.damping(), cases.drawn_damping(), cases.windows(), cases.drawn_windows(),
        cases.rails(), cases.drawn_rails(), swaycases.sways(), swaycases.drawn_sways(), swaycases.words_cases())
    stored = {text('plan', case.lent, job_text(case)) for case in jobs}
    return [line for line in with_more([], [plan_line(case) for case in respelled(jobs)])
            if line.split(' | ')[1] not in stored]


def tour_lines() -> List[str]:
    return [tour_line(case) for case in cases.tours() + cases.drawn_tours()]


def damping_lines() -> List[str]:
    """Jobs, and then every weight case by a job whose table tells the weight."""
    told = [plan_line(dampingcases.by_a_job(case)) for case in cases.weights() + cases.drawn_weights()]
    return group_lines(cases.damping(), cases.drawn_damping()) + told


def sway_lines() -> List[str]:
    jobs = swaycases.sways().cases + swaycases.drawn_sways().cases + swaycases.words_cases().cases
    tours = swaycases.tours() + swaycases.drawn_sway_tours()
    return [plan_line(case) for case in jobs] + [tour_line(case) for case in tours]


def by_values(one: Case, lent: int) -> Case:
    """A job of the program `fieldcases`, which calls by its words."""
    return in_values(one._replace(name=one.name + ' by values', lent=lent))


def raises_lines() -> List[str]:
    jobs = raisecases.raises_cases().cases + raisecases.drawn_raises().cases
    more = respelled(jobs) + [by_values(*chosen) for chosen in make_fieldcases.RAISES]
    return with_more([raises_line(case) for case in jobs], [raises_line(case) for case in more])


def convert_lines() -> List[str]:
    return [convert_line(case) for case in convertcases.conversions() + convertcases.drawn_conversions()]


def search_lines() -> List[str]:
    searches = searchcases.searches() + searchcases.drawn_searches()
    more = [case._replace(job=other_spelling(case.job)) for case in searches] + bracketed()
    more += [searchcases.SearchCase(by_values(one, lent), first, budget)
             for one, lent, first, budget in make_fieldcases.SEARCHES]
    return with_more([search_line(case) for case in searches], [search_line(case) for case in more])


def backward_line(case: Case) -> str:
    return plan_line(case, 'backwards', backwardcases.turned)


def backward_lines() -> List[str]:
    """The cases of this call, these in their other spelling, the jobs of `plans.txt`, and those of
    the program `fieldcases`."""
    jobs = backwardcases.backward_cases().cases + backwardcases.drawn_backwards().cases
    more = respelled(jobs) + plan_jobs() + [by_values(*chosen) for chosen in make_fieldcases.BACKWARDS]
    return with_more([backward_line(case) for case in jobs], [backward_line(case) for case in more])


def part_lines() -> List[str]:
    more = [partcases.PartCase(by_values(one, lent), first) for one, lent, first in make_fieldcases.PARTS]
    return with_more([part_line(case) for case in partcases.part_cases() + partcases.drawn_parts()],
                     [part_line(case) for case in more])


FILES = {
    'plans.txt': ('Tables, and every refusal of a job.', lambda: [plan_line(case) for case in plan_jobs()]),
    'spelled.txt': ('Jobs of the other files of tables in their other spelling, words or typed values.', spelled_lines),
    'tours.txt': ('A tour of stops (request 2.1).', tour_lines),
    'damping.txt': ('Damping as measured (request 2.3).', damping_lines),
    'windows.txt': ('Laser windows (request 2.5).', lambda: group_lines(cases.windows(), cases.drawn_windows())),
    'rails.txt': ('Positions past 28 bits (request 2.8).', lambda: group_lines(cases.rails(), cases.drawn_rails())),
    'sway.txt': ('Poles with a second sway (request 2.9).', sway_lines),
    'raises.txt': ('The smallest change that makes it (request 2.10).', raises_lines),
    'convert.txt': ('Flying fixed targets go (request 2.11).', convert_lines),
    'search.txt': ('Planning between servo turns (request 2.12).', search_lines),
    'backwards.txt': ('Rows from arrival backwards (request 2.13).', backward_lines),
    'parts.txt': ('Rows in parts.', part_lines),
}


def contents(name: str) -> str:
    about, lines = FILES[name]
    return '\n'.join(['# %s Made by tests/reference/make_vectors.py.' % about] + lines()) + '\n'


def is_stored(name: str) -> bool:
    with open(os.path.join(FOLDER, name)) as kept:
        return kept.read() == contents(name)


def main(words: List[str]) -> int:
    if words == ['--check']:
        wrong = [name for name in FILES if not is_stored(name)]
        print('not as stored: ' + ', '.join(wrong) if wrong else 'as stored')
        return 1 if wrong else 0
    if words:
        print(__doc__)
        return 2
    os.makedirs(FOLDER, exist_ok=True)
    for name in FILES:
        with open(os.path.join(FOLDER, name), 'w') as out:
            out.write(contents(name))
    return 0


if __name__ == '__main__':
    sys.exit(main(sys.argv[1:]))
