#!/usr/bin/env python3
"""An independent reference of the planner: docs/METHOD.md in exact whole numbers.

It is written from the method alone and shares nothing with the Rattle code.
Every section names the section of docs/METHOD.md that it
follows. Beside it: damping as measured in `damping.py`, a tour of stops in
`tour.py`, raises in `raises.py`, the converter in `converter.py`, the search in
`search.py`, rows from arrival backwards in `backwards.py`.

    python3 reference.py < job       the table program: job words in, text out
    python3 reference.py --selftest  the method's cases, and checks by definition

Units: a fine step is 1/256 unit. An axis is planned on a grid of its own, of
1/256, 1/512 or 1/65,536 unit: planned positions are counted in half grid steps,
planned velocities and accelerations in grid steps (rule 1).
"""

import sys
from typing import Dict, List, NamedTuple, Optional, Tuple, Union

from damping import Damping, weight_of

FINE = 256                      # fine steps in a unit; also A + B
LAST_TICK = 4096                # the latest arrival
AXES = 6                        # bits 0 to 5 of the mask
MOST_WINDOWS = 32
MOST_DWELL = 4096
LEAST_HIGH, MOST_HIGH = -64, 63  # the payloads of kind 14 (request 2.8)
PROGRAM_BYTES = 512             # what the table program reads (request 2.8)
PROGRAM_CELLS = 8192            # what the table program lends


# --- Quantities ------------------------------------------------------------

class RestPoint(NamedTuple):
    """A start, or a fixed target: a position, and a velocity that goes on. That
    of a fixed target must be 0 (request 2.11)."""
    position: int
    velocity: int


class State(NamedTuple):
    """A moving target: its state at a target tick."""
    position: int
    velocity: int
    acceleration: int
    tick: int


class Axis(NamedTuple):
    start: RestPoint
    speed_limit: int            # L
    acceleration_limit: int     # M
    half_period: int            # h
    second_weight: Union[int, Damping]  # B, or by typed values what was measured
    target: Union[RestPoint, State]
    second_half_period: Optional[int] = None    # h2 (request 2.9); none is no number


class Windows(NamedTuple):
    """Request 2.5."""
    pairs: List[Tuple[int, int]]    # an opening and a closing tick each
    dwell: int


class Job(NamedTuple):
    mask: int
    asked: int                  # 0: the least arrival
    axes: Dict[int, Axis]       # by bit, for each set bit of the mask
    windows: Optional[Windows] = None


class Answer(NamedTuple):
    number: int
    place: int = 0
    mask: int = 0
    arrival: int = 0


def acceleration_of(target) -> int:
    return target.acceleration if isinstance(target, State) else 0


def target_at(axis: Axis, tick: int, arrival: int) -> Tuple[int, int]:
    """Twice the target's position, and its velocity, at a tick.

    A fixed target is read as moving with a = 0 and t the arrival tick. The
    position is doubled because a*d*d/2 may be half a unit.
    """
    target = axis.target
    since = target.tick if isinstance(target, State) else arrival
    a = acceleration_of(target)
    d = tick - since
    return (2 * target.position + 2 * target.velocity * d + a * d * d,
            target.velocity + a * d)


# --- Planned motion --------------------------------------------------------

def is_corrected(axis: Axis) -> bool:
    """An accelerating target on a damped pole (request 2.6)."""
    return (acceleration_of(axis.target) != 0 and axis.half_period != 0
            and axis.second_weight != 128)


def second_delay(axis: Axis) -> int:
    """h2, or 0 where the axis has no second half period (request 2.9)."""
    return axis.second_half_period or 0


def delay(axis: Axis) -> int:
    return axis.half_period + second_delay(axis)


def finer(axis: Axis) -> int:
    """The grid steps in a fine step."""
    if axis.second_half_period is not None:
        return 512 // FINE
    return 65536 // FINE if is_corrected(axis) else 1


class Ends(NamedTuple):
    """Where the planned motion starts and lands, for one arrival N."""
    ticks: int                  # T = N - h, or N - h - h2
    start_position: int
    start_velocity: int
    end_position: int
    end_velocity: int
    end_acceleration: int       # from tick T on
    limit: int                  # L, in grid steps
    step: int                   # M, in grid steps


def planned_ends(axis: Axis, arrival: int) -> Ends:
    """Rules 2 and 3, carried over to the axis's grid, and the gain of 2.6.

    Start and target are shifted by velocity x (Bh/256 + h2/2); `shift` is that
    factor in fine steps (request 2.9). With h2 there is no acceleration.
    """
    h, b, f = axis.half_period, axis.second_weight, finer(axis)
    ticks = arrival - delay(axis)
    a = acceleration_of(axis.target)
    twice_y, y_velocity = target_at(axis, ticks, arrival)
    gain = 2 * b * h * h * (b - 128) * a if is_corrected(axis) else 0
    shift = b * h + 128 * second_delay(axis)
    return Ends(
        ticks=ticks,
        start_position=f * (512 * axis.start.position + 2 * shift * axis.start.velocity),
        start_velocity=f * 256 * axis.start.velocity,
        end_position=f * (256 * twice_y + 2 * shift * y_velocity) + gain,
        end_velocity=f * (256 * y_velocity + b * h * a),
        end_acceleration=f * 256 * a,
        limit=f * 256 * axis.speed_limit,
        step=f * 256 * axis.acceleration_limit)


def twice_required_sum(e: Ends) -> int:
    """Twice the sum that the velocities of ticks 1 to T - 1 must have.

    By rule 1 a tick moves the position by 2V + alpha, the sum of its two end
    velocities; so the displacement is both ends once and the rest twice.
    """
    return e.end_position - e.start_position - e.start_velocity - e.end_velocity


def ramp_sum(first: int, step: int, limit: int, count: int) -> int:
    """The sum over k = 1 to count of the lesser of limit and first + step*k."""
    below = min(count, (limit - first) // step)
    return below * first + step * below * (below + 1) // 2 + (count - below) * limit


def upper_sum(start: int, end: int, limit: int, step: int, ticks: int) -> int:
    """The sum of the upper envelope (rule 5) over ticks 1 to T - 1.

    Up to tick `turn` the ramp from the start is the lower of the two ramps,
    after it the ramp down to the end.
    """
    turn = min((end - start + step * ticks) // (2 * step), ticks - 1)
    return (ramp_sum(start, step, limit, turn)
            + ramp_sum(end, step, limit, ticks - 1 - turn))


def list_exists(start: int, end: int, limit: int, step: int, ticks: int,
                twice_sum: int) -> bool:
    """Whether some list of whole velocities meets rule 4.

    The ends must lie within the limit and within reach of each other. Then
    every list lies between the envelopes, both envelopes are lists, and one
    can be turned into the other by changes of one: each whole sum between
    theirs is reached, and no other.
    """
    if abs(start) > limit or abs(end) > limit or abs(end - start) > step * ticks:
        return False
    if twice_sum % 2 != 0:
        return False
    lower = -upper_sum(-start, -end, limit, step, ticks)
    upper = upper_sum(start, end, limit, step, ticks)
    return lower <= twice_sum // 2 <= upper


def reachable(axis: Axis, arrival: int) -> bool:
    """Rule 4."""
    if arrival <= delay(axis):
        return False
    e = planned_ends(axis, arrival)
    at_arrival = e.end_velocity + e.end_acceleration * delay(axis)
    if abs(e.end_velocity) > e.limit or abs(at_arrival) > e.limit:
        return False
    return list_exists(e.start_velocity, e.end_velocity, e.limit, e.step, e.ticks,
                       twice_required_sum(e))


def envelopes(e: Ends) -> List[Tuple[int, int]]:
    """The lower and the upper envelope at ticks 1 to T - 1 (rule 5)."""
    def at(k: int) -> Tuple[int, int]:
        rise, fall = e.step * k, e.step * (e.ticks - k)
        return (max(-e.limit, e.start_velocity - rise, e.end_velocity - fall),
                min(e.limit, e.start_velocity + rise, e.end_velocity + fall))
    return [at(k) for k in range(1, e.ticks)]


def chosen_velocities(e: Ends) -> List[int]:
    """The list of rule 5, for ticks 0 to T."""
    between = envelopes(e)
    required = twice_required_sum(e) // 2

    def brought(cruise: int) -> List[int]:
        return [min(max(cruise, low), high) for low, high in between]

    # The largest cruise whose sum does not exceed the required one: the sum
    # never falls as the cruise rises.
    cruise, above = -e.limit, e.limit + 1
    while above - cruise > 1:
        middle = (cruise + above) // 2
        if sum(brought(middle)) <= required:
            cruise = middle
        else:
            above = middle
    velocities = brought(cruise)
    raised = brought(cruise + 1) if cruise < e.limit else velocities
    remainder = required - sum(velocities)
    for i in range(len(velocities)):
        if remainder > 0 and raised[i] > velocities[i]:
            velocities[i] += 1
            remainder -= 1
    assert remainder == 0, 'rule 5 leaves no remainder on a reachable arrival'
    return [e.start_velocity] + velocities + [e.end_velocity]


# --- Blend and rows --------------------------------------------------------

class Planned(NamedTuple):
    """The planned motion of an axis, at any tick up to N."""
    ends: Ends
    velocities: List[int]       # ticks 0 to T
    positions: List[int]        # ticks 0 to T

    def at(self, k: int) -> Tuple[int, int, int]:
        """Position, velocity and acceleration at tick k, also before 0."""
        e = self.ends
        if k < 0:
            return e.start_position + 2 * e.start_velocity * k, e.start_velocity, 0
        if k < e.ticks:
            return (self.positions[k], self.velocities[k],
                    self.velocities[k + 1] - self.velocities[k])
        j, a = k - e.ticks, e.end_acceleration
        return (e.end_position + 2 * e.end_velocity * j + a * j * j,
                e.end_velocity + a * j, a)


def plan_axis(axis: Axis, arrival: int) -> Planned:
    e = planned_ends(axis, arrival)
    velocities = chosen_velocities(e)
    positions = [e.start_position]
    for before, after in zip(velocities, velocities[1:]):
        positions.append(positions[-1] + before + after)
    assert positions[-1] == e.end_position, 'rule 3: the plan lands on its target'
    return Planned(e, velocities, positions)


def blended_once(axis: Axis, planned: Planned, k: int) -> Tuple[int, int, int]:
    """The blend by the half period and its weights, times 256."""
    b = axis.second_weight
    first, second = planned.at(k), planned.at(k - axis.half_period)
    return tuple((FINE - b) * x + b * y for x, y in zip(first, second))


def weights(axis: Axis) -> int:
    """The sum of all weights of the blend, or of both blends."""
    return FINE if axis.second_half_period is None else 2 * FINE


def blended(axis: Axis, planned: Planned, k: int) -> Tuple[int, int, int]:
    """The exact blends at tick k, each times the sum of the weights: half grid
    steps for the position, grid steps for velocity and acceleration. A second
    half period blends once more, with equal weights (request 2.9)."""
    once = blended_once(axis, planned, k)
    if axis.second_half_period is None:
        return once
    again = blended_once(axis, planned, k - axis.second_half_period)
    return tuple(x + y for x, y in zip(once, again))


def nearest(numerator: int, denominator: int) -> int:
    """The quotient rounded to the nearest, halves away from zero (request 2.4)."""
    size = (2 * abs(numerator) + denominator) // (2 * denominator)
    return -size if numerator < 0 else size


def row_cells(axis: Axis, planned: Planned, k: int) -> List[int]:
    """The blends in fine steps, rounded once."""
    position, velocity, acceleration = blended(axis, planned, k)
    divisor = weights(axis) * finer(axis)
    return [nearest(position, 2 * divisor), nearest(velocity, divisor),
            nearest(acceleration, divisor)]


def table_cells(job: Job, arrival: int) -> List[int]:
    """Rows 0 to N; in a row the axes ascend."""
    plans = [(axis, plan_axis(axis, arrival)) for _, axis in sorted(job.axes.items())]
    return [cell for k in range(arrival + 1) for axis, planned in plans
            for cell in row_cells(axis, planned, k)]


# --- Job words -------------------------------------------------------------

SIGNED_KINDS = (3, 4, 9, 10, 11, 12, 14)
PAYLOADS = 1 << 28


def kind_of(word: int) -> int:
    return word >> 28


def payload_of(word: int) -> int:
    payload = word % PAYLOADS
    if kind_of(word) in SIGNED_KINDS and payload >= PAYLOADS // 2:
        return payload - PAYLOADS
    return payload


def fits_one_word(position: int) -> bool:
    return -PAYLOADS // 2 <= position < PAYLOADS // 2


def breaks_14(high: int, position: int) -> bool:
    """A kind 14 payload outside its range, or a position that needs none."""
    return not LEAST_HIGH <= high <= MOST_HIGH or fits_one_word(position)


def mask_is_good(mask: int) -> bool:
    return 1 <= mask <= 63


class Refused(Exception):
    def __init__(self, answer: Answer):
        super().__init__(answer)
        self.answer = answer


class Reader:
    """Takes words in order; the first that is not allowed is refusal 2."""

    def __init__(self, words: List[int]):
        self.words = words
        self.index = 1          # the mask word is read already
        self.breaking_14 = []   # the indices of kind 14 words to be refused

    def refuse(self) -> None:
        raise Refused(Answer(2, place=self.index))

    def next_is(self, kind: int) -> bool:
        return self.index < len(self.words) and kind_of(self.words[self.index]) == kind

    def take(self, kind: int) -> int:
        if not self.next_is(kind):
            self.refuse()       # a wrong word's index, or the word count
        self.index += 1
        return payload_of(self.words[self.index - 1])

    def position(self, kind: int) -> int:
        """A position word, with a word of kind 14 just before it or without
        (request 2.8). After kind 14 its payload is read as unsigned."""
        if not self.next_is(14):
            return self.take(kind)
        place, high = self.index, self.take(14)
        position = high * PAYLOADS + self.take(kind) % PAYLOADS
        if breaks_14(high, position):
            self.breaking_14.append(place)
        return position

    def axis(self) -> Axis:
        start = RestPoint(self.position(3), self.take(4))
        speed, acceleration, half, weight = (self.take(kind) for kind in range(5, 9))
        second = self.take(13) if self.next_is(13) else None
        target = RestPoint(self.position(9), self.take(10))
        if self.next_is(11):
            target = State(*target, self.take(11), self.take(12))
        return Axis(start, speed, acceleration, half, weight, target, second)

    def end(self) -> None:
        if self.next_is(15) and payload_of(self.words[self.index]) != 0:
            self.refuse()       # a wrong end payload, before what is left over
        self.take(15)
        if self.index < len(self.words):
            self.refuse()       # the first word left over


def decode(words: List[int]) -> Job:
    """The job of the words; refusals 1, 2 and 14."""
    if not words or kind_of(words[0]) != 1 or not mask_is_good(payload_of(words[0])):
        raise Refused(Answer(1))
    mask = payload_of(words[0])
    reader = Reader(words)
    asked = reader.take(2)
    axes = {}
    for bit in range(AXES):
        if mask >> bit & 1:
            axes[bit] = reader.axis()
    reader.end()
    if reader.breaking_14:
        raise Refused(Answer(14, place=reader.breaking_14[0]))
    return Job(mask, asked, axes)


def word(kind: int, value: int) -> int:
    return kind * PAYLOADS + value % PAYLOADS


def position_words(kind: int, position: int) -> List[int]:
    """The one spelling of a position."""
    long = [] if fits_one_word(position) else [word(14, position // PAYLOADS)]
    return long + [word(kind, position)]


def axis_words(axis: Axis) -> List[int]:
    pole = [axis.speed_limit, axis.acceleration_limit, axis.half_period, axis.second_weight]
    second = [] if axis.second_half_period is None else [word(13, axis.second_half_period)]
    return (position_words(3, axis.start.position) + [word(4, axis.start.velocity)]
            + [word(kind, value) for kind, value in enumerate(pole, 5)] + second
            + position_words(9, axis.target.position)
            + [word(kind, value) for kind, value in enumerate(axis.target[1:], 10)])


def encode(job: Job) -> List[int]:
    """The words of a job whose values fit their payloads."""
    words = [word(1, job.mask), word(2, job.asked)]
    for _, axis in sorted(job.axes.items()):
        words += axis_words(axis)
    return words + [word(15, 0)]


def words_of_bytes(data: bytes) -> List[int]:
    """Little-endian words; one to three left-over bytes are one wrong word."""
    whole = len(data) // 4 * 4
    words = [int.from_bytes(data[i:i + 4], 'little') for i in range(0, whole, 4)]
    return words + [0] if whole < len(data) else words


# --- Refusals 3 to 6, 12, 13, 15 to 17; 7 is never given (request 2.6) -----

def breaks_4(axis: Axis) -> bool:
    return not (1 <= axis.speed_limit <= 1048576
                and 1 <= axis.acceleration_limit <= 65536)


def breaks_5(axis: Axis) -> bool:
    return not (0 <= axis.half_period <= 256 and 1 <= axis.second_weight <= 128)


def is_on_the_rail(position: int) -> bool:
    """What words can say, with kind 14 or without (request 2.8)."""
    return LEAST_HIGH * PAYLOADS <= position < (MOST_HIGH + 1) * PAYLOADS


def breaks_6(axis: Axis) -> bool:
    target = axis.target
    tick = target.tick if isinstance(target, State) else 0
    return (abs(axis.start.velocity) > axis.speed_limit
            or abs(target.velocity) > axis.speed_limit
            or abs(acceleration_of(target)) > axis.acceleration_limit
            or abs(tick) > LAST_TICK
            or not is_on_the_rail(axis.start.position)
            or not is_on_the_rail(target.position))


def breaks_15(axis: Axis) -> bool:
    """Request 2.9."""
    return axis.second_half_period is not None and not 1 <= axis.second_half_period <= 256


def breaks_16(axis: Axis) -> bool:
    """Request 2.9."""
    return axis.second_half_period is not None and acceleration_of(axis.target) != 0


def breaks_17(axis: Axis) -> bool:
    """A fixed target that flies (request 2.11)."""
    return isinstance(axis.target, RestPoint) and axis.target.velocity != 0


def breaks_12(axis: Axis) -> bool:
    """Request 2.3."""
    return not isinstance(axis.second_weight, int) and weight_of(axis.second_weight) is None


def weighed(axis: Axis) -> Axis:
    """The axis with its weight entered by hand."""
    b = axis.second_weight
    return axis if isinstance(b, int) else axis._replace(second_weight=weight_of(b))


ENTERED = ((4, breaks_4), (12, breaks_12))
WEIGHED = ((5, breaks_5), (15, breaks_15), (6, breaks_6), (16, breaks_16))


def check_axes(job: Job, checks) -> None:
    """Each number over all axes, lowest first, before the next number."""
    for number, breaks in checks:
        for bit, axis in sorted(job.axes.items()):
            if breaks(axis):
                raise Refused(Answer(number, place=bit))


def check_windows(windows: Windows) -> None:
    """Refusal 13."""
    if not windows.pairs:
        raise Refused(Answer(13, place=0))
    if len(windows.pairs) > MOST_WINDOWS or windows.dwell > MOST_DWELL:
        raise Refused(Answer(13, place=MOST_WINDOWS))
    closed = 0
    for place, (opening, closing) in enumerate(windows.pairs):
        if closing <= opening or opening < closed:
            raise Refused(Answer(13, place=place))
        closed = closing


def checked_values(job: Job) -> Job:
    """The refusals from 3 to 16 that look at single values, in checking order;
    or the job with every weight entered by hand."""
    if job.asked > LAST_TICK:
        raise Refused(Answer(3, place=1))
    check_axes(job, ENTERED)
    job = job._replace(axes={bit: weighed(axis) for bit, axis in job.axes.items()})
    check_axes(job, WEIGHED)
    return job


def check_flying(job: Job) -> None:
    """Refusal 17."""
    check_axes(job, ((17, breaks_17),))


def checked(job: Job) -> Job:
    """The refusals from 3 on, save those of arrival and table: 8, 9, 10; or the
    job with every weight entered by hand."""
    job = checked_values(job)
    check_flying(job)
    if job.windows is not None:
        check_windows(job.windows)
    return job


# --- The arrival: refusals 8, 9, 10 ----------------------------------------

def fits(job: Job, arrival: int) -> bool:
    """Whether an arrival fits a window, where the job brings some (request 2.5)."""
    if job.windows is None:
        return True
    dwell = job.windows.dwell
    return any(opening <= arrival < closing and arrival + dwell <= closing
               for opening, closing in job.windows.pairs)


def least_common_arrival(job: Job) -> Optional[int]:
    for arrival in range(1, LAST_TICK + 1):
        if fits(job, arrival) and all(reachable(axis, arrival) for axis in job.axes.values()):
            return arrival
    return None


def mask_where(job: Job, test) -> int:
    """The mask of the axes that pass a test."""
    return sum(1 << bit for bit, axis in job.axes.items() if test(axis))


def reaches_none(axis: Axis) -> bool:
    """Alone, and whatever the windows are."""
    return not any(reachable(axis, n) for n in range(1, LAST_TICK + 1))


def arrival_of(job: Job) -> int:
    """Refusals 8 and 9, or the arrival of a job that passed the checks."""
    if job.asked:
        failing = mask_where(job, lambda axis: not reachable(axis, job.asked))
        if failing or not fits(job, job.asked):
            raise Refused(Answer(8, mask=failing))
        return job.asked
    arrival = least_common_arrival(job)
    if arrival is None:
        raise Refused(Answer(9, mask=mask_where(job, reaches_none)))
    return arrival


def check_cells(job: Job, arrival: int, lent: int) -> None:
    if lent < 3 * len(job.axes) * (arrival + 1):
        raise Refused(Answer(10, arrival=arrival))


# --- The calls, and the table program --------------------------------------

Outcome = Tuple[Answer, List[int]]


def plan_job(job: Job, lent: List[int], table=table_cells) -> Outcome:
    """A job that passed 1, 2 and 14: its answer, and the lent cells as the call
    leaves them."""
    job = checked(job)
    arrival = arrival_of(job)
    check_cells(job, arrival, len(lent))
    cells = table(job, arrival)
    return Answer(0, mask=job.mask, arrival=arrival), cells + lent[len(cells):]


def refusing(call, lent: List[int]) -> Outcome:
    """The outcome of a call; a refusal writes nothing."""
    try:
        return call()
    except Refused as refused:
        return refused.answer, list(lent)


def plan_words(words: List[int], lent: List[int]) -> Outcome:
    """From job words."""
    return refusing(lambda: plan_job(decode(words), lent), lent)


def typed_job(mask: int, asked: int, axes: List[Axis], windows: Optional[Windows] = None) -> Job:
    """The job of typed values: six axes, those off the mask never looked at."""
    if not mask_is_good(mask):
        raise Refused(Answer(1))
    return Job(mask, asked, {bit: axes[bit] for bit in range(AXES) if mask >> bit & 1}, windows)


def plan_typed(mask: int, asked: int, axes: List[Axis], lent: List[int],
               windows: Optional[Windows] = None) -> Outcome:
    """From typed values."""
    return refusing(lambda: plan_job(typed_job(mask, asked, axes, windows), lent), lent)


def printed(answer: Answer, cells: List[int]) -> str:
    if answer.number != 0:
        return 'refused %d place %d axes %d arrival %d\n' % answer
    width = 3 * bin(answer.mask).count('1')
    lines = ['arrival %d' % answer.arrival]
    for k in range(answer.arrival + 1):
        row = cells[k * width:(k + 1) * width]
        lines.append(' '.join(str(x) for x in [k, *row]))
    return '\n'.join(lines) + '\n'


def table_program(data: bytes) -> str:
    return printed(*plan_words(words_of_bytes(data[:PROGRAM_BYTES]),
                               [0] * PROGRAM_CELLS))


if __name__ == '__main__':
    if sys.argv[1:] == ['--selftest']:
        import selftest
        sys.exit(selftest.main())
    sys.stdout.write(table_program(sys.stdin.buffer.read(PROGRAM_BYTES)))
