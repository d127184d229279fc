"""The cases of the smallest change that makes it (request 2.10)."""

import random
from typing import List

from builders import Case, Group, axis, by_words, job, to, typed, words_of
from dampingcases import random_damping, ratio
from railcases import HIGH, LOW, along, random_offset
from raises import Raises, raises_typed, raises_words
from reference import Axis
from swaycases import jointed, random_jointed
from windowcases import random_windows, windowed


def raised(case: Case) -> Raises:
    """What the reference answers; the lent cells of a case do not matter."""
    if case.words is not None:
        return raises_words(case.words)
    return raises_typed(case.mask, case.asked, case.axes, case.windows)


CHASED = axis(speed_limit=100, acceleration_limit=4, half_period=2, second_weight=64, target=(30, 1, 2, 0))


def found() -> List[Case]:
    return [
        job('E', [to(4)], asked=3),
        typed('E by values', [to(4)], asked=3),
        typed('equal raises, M first', [to(9, speed_limit=2)], asked=6),
        typed('L first', [to(22, speed_limit=3, start=(0, 2))], asked=8),
        typed('both, M the smaller', [to(90, speed_limit=6)], asked=19),
        typed('both, M the smaller, from 2', [to(40, speed_limit=6, acceleration_limit=2)], asked=9),
        typed('M alone', [to(100, speed_limit=1000)], asked=5),
        typed('L alone', [to(100, speed_limit=5, acceleration_limit=50)], asked=9),
        typed('each alone is not enough', [to(400)], asked=9),
        typed('no raise before h + 1', [to(4, half_period=3)], asked=3),
        typed('one tick after it', [to(4, half_period=3)], asked=4),
        typed('no raise moves in one tick', [to(4)], asked=1),
        typed('the other way', [to(-9, speed_limit=2)], asked=6),
        typed('too fast to stop', [to(3, speed_limit=100, start=(0, 90))], asked=9),
        typed('too near to stop', [to(0, start=(0, 10))], asked=8),
        typed('a planned speed above L', [axis(half_period=4, acceleration_limit=30, target=(0, 9, 1, 0))], asked=10),
        typed('a target that gets away', [axis(acceleration_limit=9, target=(0, 9, 1, 0))], asked=40),
        typed('a moving target', [axis(target=(90, -3, 0, 2))], asked=9),
        typed('a moving target, one tick earlier', [axis(target=(90, -3, 0, 2))], asked=8),
        typed('a damped pole', [to(90, half_period=5, second_weight=60)], asked=15),
        typed('a damped pole, both', [to(90, speed_limit=6, half_period=5, second_weight=60)], asked=24),
        typed('an accelerating target on a damped pole', [CHASED], asked=5),
        typed('an accelerating target on a damped pole, L', [CHASED._replace(speed_limit=12, acceleration_limit=90)],
              asked=9),
        typed('a pole with a joint', [jointed(3, 90, half_period=2)], asked=15),
        typed('a pole with a joint, both', [jointed(3, 90, half_period=2, speed_limit=6)], asked=24),
        typed('a pole with a joint, before h + h2 + 1', [jointed(3, 90, half_period=2)], asked=5),
        typed('measured damping', [to(90, half_period=5, second_weight=ratio(0.5))], asked=16),
        typed('at the upper end of the rail', [to(HIGH, start=(HIGH - 9, 0), speed_limit=2)], asked=6),
        typed('from end to end of the rail', [to(HIGH, start=(LOW, 0), speed_limit=1048576, acceleration_limit=65536)],
              asked=4096),
        job('by words, far along the rail', [to(LOW, start=(LOW + 9, 0), speed_limit=2)], asked=6),
        job('by words, with a joint', [jointed(3, 90, half_period=2)], asked=17),
    ]


def ends() -> List[Case]:
    """Raises up to the end of a range, and one that would have to pass it."""
    quick = to(65536, speed_limit=1048576)
    # 288 x 65,536 is what 34 ticks give with L at 16 x 65,536, its end, and M at its end
    long = to(18874368, speed_limit=1048575, acceleration_limit=65536)
    return [
        typed('M up to 65,536', [quick], asked=2),
        typed('M past 65,536', [to(65537, speed_limit=1048576)], asked=2),
        typed('M at 65,536 already', [to(65537, speed_limit=1048576, acceleration_limit=65536)], asked=2),
        typed('M from 65,535', [quick._replace(acceleration_limit=65535)], asked=2),
        typed('L up to 1,048,576', [long], asked=34),
        typed('L up to 1,048,576, from 1', [long._replace(speed_limit=1)], asked=34),
        typed('L past 1,048,576', [long._replace(target=long.target._replace(position=18874369))], asked=34),
        typed('both at their ends already', [to(20000000, speed_limit=1048576, acceleration_limit=65536)], asked=34),
        typed('the longest way at the last tick', [to(5000, speed_limit=1)], asked=4096),
    ]


def several() -> List[Case]:
    slow = to(134217727, speed_limit=1)
    return [
        typed('one of two axes', [to(4), to(1)], asked=3),
        typed('two of three axes', [to(4), to(1), to(-9)], asked=3),
        typed('mask 42', {1: to(4), 3: to(1), 5: to(9, speed_limit=2)}, asked=3),
        job('mask 42 by words', {1: to(4), 3: to(1), 5: to(9, speed_limit=2)}, asked=3),
        typed('six axes', [to(4), to(9, speed_limit=2), slow, to(4, half_period=9), to(1), jointed(1, 30)], asked=6),
        typed('six axes, none with a raise', [slow] * 6, asked=2),
    ]


def no_raise() -> List[Case]:
    far = to(100000000, speed_limit=1)
    return [
        typed('accepted', [to(4)], asked=4), typed('accepted, the least arrival', [to(4)]),
        job('accepted, by words', [to(4), to(1)], asked=9),
        typed('accepted with no cell lent', [to(4)], asked=4, lent=0),
        job('accepted with no cell lent, by words', [to(4)], lent=0),
        typed('9', [to(4), far]), typed('9 with mask 0', [axis(target=(0, 0, 1, 0)), to(1000)]),
        typed('1', {}), by_words('1 by words', []), by_words('2', words_of([to(4)], asked=3)[:-1]),
        by_words('14', words_of([to(4)], asked=3)[:2] + [0xE0000000] + words_of([to(4)], asked=3)[2:]),
        typed('3', [to(4)], asked=4097), typed('4', [to(4, speed_limit=0)], asked=3),
        typed('12', [to(4, second_weight=ratio(0))], asked=3), typed('5', [to(4, half_period=257)], asked=3),
        typed('15', [jointed(0, 4)], asked=3), typed('6', [to(4, start=(0, 11))], asked=3),
        typed('16', [axis(second_half_period=1, target=(0, 0, 1, 0))], asked=3),
        typed('17', [axis(target=(900, 1))], asked=3), job('17 by words', [to(4), axis(target=(900, 1))], asked=3),
        windowed('13', [], asked=3),
        windowed('a raise heeds no window', [(6, 7)], asked=3),
        windowed('8 with mask 0', [(6, 7)], asked=4),
        windowed('8 in a window', [(3, 4)], asked=3),
        windowed('9 in a window', [(1, 2)]),
        windowed('accepted in a window', [(4, 7)], 2, asked=5),
    ]


def raises_cases() -> Group:
    return Group('raises', 'The smallest change that makes it.', found() + ends() + several() + no_raise())


# --- Random ones -----------------------------------------------------------

def drawn_raises(seed: int = 210, count: int = 60) -> Group:
    """Random jobs, most asked early; by words and by typed values, some with windows."""
    rng = random.Random(seed)
    cases = []
    for k in range(count):
        axes = {bit: random_jointed(rng) for bit in sorted(rng.sample(range(6), rng.choice([1, 1, 2, 3])))}
        axes = {bit: one if rng.randrange(4) else along(one, random_offset(rng)) for bit, one in axes.items()}
        asked, name = rng.choice([rng.randint(1, 12), rng.randint(5, 50), rng.randint(40, 200),
                                  0]), 'drawn raises %d' % k
        if k % 2:
            cases.append(by_words(name, words_of(axes, asked)))
            continue
        if rng.randrange(4) == 0:
            axes = {bit: one._replace(second_weight=random_damping(rng)) for bit, one in axes.items()}
        cases.append(typed(name, axes, asked)._replace(windows=random_windows(rng) if rng.randrange(4) == 0 else None))
    return Group('drawn raises', 'Random jobs, most asked too early.', cases)


def small_axis(rng: random.Random) -> Axis:
    """Small numbers, so that every limit up to an enough one can be tried."""
    return axis(start=(0, rng.randint(-3, 3)), speed_limit=rng.randint(3, 6), acceleration_limit=rng.randint(1, 3),
                half_period=rng.randint(0, 3), second_weight=rng.choice([128, rng.randint(1, 128)]),
                target=(rng.randint(-60, 60), 0))
