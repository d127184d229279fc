#!/usr/bin/env python3
"""What a good sheet in a crew's units comes to: the planned numbers, and a sentence for each entry
that was rounded. Written from docs/SHEET.md, "Numbers with their unit", in exact fractions.

    python3 tests/reference/sheets.py              # writes tests/sheets/drawn.txt and the texts of
                                                   tests/sheets/good and examples
    python3 tests/reference/sheets.py --check      # whether they are what it would write
    python3 tests/reference/sheets.py SHEET..      # prints what sheets come to
"""

import random
import re
import struct
import sys
from fractions import Fraction
from pathlib import Path

from damping import Peaks, Ratio, weight_of

FOLDER = Path(__file__).resolve().parents[1] / 'sheets'
MINUS = '\u2212\u2013\u2010\u2011'
NUMBER = r'[+\-%s]?(?:\d+\.?\d*|\.\d+)(?:[eE][+\-%s]?\d{1,2}(?!\d))?' % (MINUS, MINUS)
DEGREE = {'deg', '\u00b0', '\u00ba', '\u02da'}

# Each entry of an axis: what it measures, and which whole number stands for it.
AXIS = {
    'half period': ('time', 'nearest'), 'second half period': ('time', 'nearest'),
    'speed limit': ('velocity', 'down'), 'acceleration limit': ('acceleration', 'down'),
    'start position': ('position', 'nearest'), 'target position': ('position', 'nearest'),
    'start velocity': ('velocity', 'nearest'), 'target velocity': ('velocity', 'nearest'),
    'target acceleration': ('acceleration', 'nearest'), 'target tick': ('time', 'nearest'),
}
STEPS = {'time': 'tick', 'position': 'unit', 'velocity': 'unit per tick', 'acceleration': 'unit per tick²'}


def number(text):
    """The number that a text stands for, exactly."""
    plain = text.translate({ord(sign): '-' for sign in MINUS})
    return Fraction(plain if not plain.endswith('.') else plain + '0')


def size(text):
    """A number, or a quotient of two."""
    parts = text.split('/')
    return number(parts[0]) / number(parts[1]) if len(parts) == 2 else number(parts[0])


def nearest(value):
    """The nearest whole number; of two, the one further from 0."""
    whole = (abs(value) + Fraction(1, 2)).__floor__()
    return -whole if value < 0 else whole


def rounded(value, how):
    return {'down': value.__floor__, 'up': value.__ceil__, 'nearest': lambda: nearest(value)}[how]()


def shown(value, digits, how='nearest'):
    """The decimal number of so many significant digits that stands for a value,
    without noughts at its end."""
    if value == 0:
        return '0'
    power, scaled = 0, abs(value)
    while scaled >= 10:
        power, scaled = power + 1, scaled / 10
    while scaled < 1:
        power, scaled = power - 1, scaled * 10
    whole = rounded(abs(value) * Fraction(10) ** (digits - 1 - power), how)
    return ('-' if value < 0 else '') + decimal(whole, digits - 1 - power)


def decimal(whole, places):
    """A whole number by ten to a power, as a decimal."""
    if places <= 0:
        return str(whole) + '0' * -places
    text = str(whole).rjust(places + 1, '0')
    return (text[:-places] + '.' + text[-places:]).rstrip('0').rstrip('.')


def same(name):
    """A name in small letters and in the singular."""
    name = name.lower()
    if name.endswith('s') and len(name) >= 3:
        name = name[:-1]
    return 'degree' if name in DEGREE else name


def steps(count, quantity):
    name = STEPS[quantity]
    if abs(count) == 1:
        return name
    return name.replace('tick', 'ticks', 1) if quantity == 'time' else name.replace('unit', 'units', 1)


def amounts(text):
    """Each number of a text with the measure that follows it, and both as they are written."""
    found = []
    for word in text.split():
        begun = re.match(NUMBER, word)
        if begun:
            found.append([begun.group(), word[begun.end():], word])
        else:
            found[-1][1] += (' ' if found[-1][1] else '') + word
            found[-1][2] += ' ' + word
    return [(digits, re.sub(r' ?/ ?', '/', measure.lower()), whole) for digits, measure, whole in found]


class Scales:
    """What a tick and a unit stand for."""

    def __init__(self, tick=None, unit=None):
        self.tick, self.unit = tick, unit

    def read(self, amount, quantity):
        """(value, what a step is, name of the measure) of an amount."""
        digits, measure, _ = amount
        if not measure:
            return number(digits), Fraction(1), None
        if quantity == 'time':
            thousand = measure in ('ms', 'millisecond', 'milliseconds')
            assert thousand or measure in ('s', 'sec', 'second', 'seconds'), measure
            return number(digits) / (1000 if thousand else 1), self.tick, 's'
        unit, name = self.unit
        ending = {'position': [''], 'velocity': ['/s'], 'acceleration': ['/s²', '/s2', '/s^2']}[quantity]
        fitting = [e for e in ending if measure.endswith(e) and same(measure[:len(measure) - len(e)]) == same(name)]
        assert fitting, (measure, name)
        step = {'position': unit, 'velocity': unit / (self.tick or 1),
                'acceleration': unit / (self.tick or 1) ** 2}[quantity]
        return number(digits), step, name + ending[0]

    def planned(self, line, whose, name, entered, amount, quantity, how, part=1, frequency=False):
        """(the whole number, the sentence or None, by how many steps it is off) of an entry."""
        if frequency:
            assert amount[1] == 'hz'
            value, step, measure = 1 / (2 * number(amount[0])), self.tick, 's'
        else:
            value, step, measure = self.read(amount, quantity)
            value *= part
        whole = rounded(value / step, how)
        off = whole * step - value
        if off == 0:
            return whole, None, 0
        counted = '%d %s' % (whole, steps(whole, quantity))
        unit = measure or steps(2, quantity)
        done = '%s %s (%s)' % (shown(whole * step, 9), measure, counted) if measure else counted
        comes = ', a half period of %s %s,' % (shown(value, 9), unit) if part != 1 or frequency else ''
        return whole, 'line %d: %s%s %s%s is planned as %s, %s %s %s' % (
            line, whose + ': ' if whose else '', name, entered, comes, done, shown(abs(off), 3), unit,
            'less' if off < 0 else 'more'), off / step


def half_period(scales, line, whose, name, value):
    """A half period, said by itself or as what it follows from."""
    plain = name.replace('second ', '', 1)
    if plain == 'swings':
        count, time = re.match(r'(\d+) in (.*)', value, re.I).groups()
        return scales.planned(line, whose, name, value, amounts(time)[0], 'time', 'nearest',
                              Fraction(1, 2 * int(count)))
    part = Fraction(1, 2) if plain == 'period' else 1
    return scales.planned(line, whose, name, value, amounts(value)[0], 'time', 'nearest', part, plain == 'frequency')


NAMES = sorted(list(AXIS) + ['period', 'frequency', 'swings', 'second period', 'second frequency', 'second swings',
                             'weight',
                             'shrinks', 'peaks', 'target', 'tick', 'unit', 'axis', 'arrival', 'window', 'dwell',
                             'stop'],
               key=lambda name: -len(name))


def lines_of(text):
    """(line, name, value) of each line that says something."""
    for index, line in enumerate(text.lstrip('\ufeff').splitlines(), 1):
        words = re.sub('[:=]', ' ', line.split('#')[0]).split()
        if words:
            said = ' '.join(words)
            name = next(name for name in NAMES if (said.lower() + ' ').startswith(name + ' '))
            yield index, name, said[len(name):].strip()


def unit_of(value):
    begun = re.match(NUMBER + '(?:/' + NUMBER + ')?', value)
    return (size(begun.group()), value[begun.end():].strip()) if begun else (Fraction(1), value)


def tick_of(value):
    begun = re.match(NUMBER + '(?:/' + NUMBER + ')?', value)
    return size(begun.group()) / (1000 if value[begun.end():].strip().lower().startswith('m') else 1)


def single(text):
    """The bits of the single-precision float of a decimal."""
    return struct.unpack('<I', struct.pack('<f', float(text)))[0]


def weight(axis):
    """The second weight of an axis."""
    if 'shrinks' in axis:
        return weight_of(Ratio(single(axis['shrinks'])))
    if 'peaks' in axis:
        return weight_of(Peaks(*map(single, axis['peaks'].split())))
    return int(axis['weight'])


def sway_left(axis, name, off):
    """The most that a pole keeps of its sway where a half period is off by so many ticks, in units:
    V by E, as theorem `sway-most` has it, for an oscillator of the true half period p, whose size
    is (p/pi)^2 and whose difference p/pi. The error counts in ten thousandths of a tick, away from
    0, and the sway in 1/256 unit, upward."""
    error = Fraction(-(-abs(off) * 10000 // 1), 10000)
    true = axis[name] + (error if off < 0 else -error)
    by_pi = Fraction(106, 333)
    second, acceleration, b = 'second half period' in axis, abs(axis.get('target acceleration', 0)), weight(axis)
    finer = 2 if second else 256 if acceleration and b != 128 else 1
    divisor = finer * (512 if second else 256)
    changes = 256 * finer * (4 * axis['acceleration limit'] + acceleration) + 2
    if name == 'half period':
        misfit, most = (2 if second else 1) * (256 - b) * error, (2 if second else 1) * 256
    else:
        misfit, most = 256 * error, 512
    greatest = min(misfit * true * by_pi, most * (true * by_pi) ** 2)
    return Fraction(-(-changes * greatest // divisor), 256)


class Sheet:
    """A good sheet: its numbers as they are planned, and the sentences."""

    def __init__(self, text):
        self.lines, self.notes, self.axes, self.titles = list(lines_of(text)), [], {}, {}
        self.head, self.stops, self.tick, self.units, self.offs = [], [], None, {}, []
        self.scan()
        axis = None
        for line, name, value in self.lines:
            if name == 'axis':
                axis = int(value.split()[0])
            else:
                self.take(line, name, value, axis)
        self.add_sways()

    def scan(self):
        axis = None
        for _, name, value in self.lines:
            if name == 'axis':
                axis = int(value.split()[0])
                self.titles[axis], self.axes[axis] = 'axis ' + value, {}
            elif name == 'tick':
                self.tick = tick_of(value)
            elif name == 'unit':
                self.units[axis] = unit_of(value)

    def scales(self, axis):
        return Scales(self.tick, self.units.get(axis, self.units.get(None)))

    def whole(self, line, whose, name, amount, quantity, how, axis=None):
        found, note, _ = self.scales(axis).planned(line, whose, name, amount[2], amount, quantity, how)
        self.notes += [(line, note)] if note else []
        return found

    def take(self, line, name, value, axis):
        if name == 'arrival':
            early = value.lower() == 'earliest'
            tick = 'earliest' if early else self.whole(line, '', 'arrival', amounts(value)[0], 'time', 'nearest')
            self.head.append('arrival %s' % tick)
        elif name == 'dwell':
            self.head.append('dwell %d' % self.whole(line, '', 'dwell', amounts(value)[0], 'time', 'up'))
        elif name == 'window':
            opening, closing = amounts(value)
            self.head.append('window %d %d' % (self.whole(line, '', 'window opening', opening, 'time', 'up'),
                                               self.whole(line, '', 'window closing', closing, 'time', 'down')))
        elif name == 'stop':
            self.take_stop(line, value)
        elif name not in ('tick', 'unit'):
            self.take_entry(line, name, value, axis)

    def take_stop(self, line, value):
        positions, dwell = re.match(r'(.*?)\s*dwell\s+(.*)', value, re.I).groups()
        index = len(self.stops)
        stay = self.whole(line, 'stop %d' % index, 'dwell', amounts(dwell)[0], 'time', 'up')
        found = [self.whole(line, 'stop %d, %s' % (index, self.titles[axis]), 'position', amount, 'position', 'nearest',
                            axis)
                 for axis, amount in zip(sorted(self.axes), amounts(positions))]
        self.stops.append('stop %s dwell %d' % (' '.join(map(str, found)), stay))

    def take_entry(self, line, name, value, axis):
        if name in ('weight', 'shrinks', 'target'):
            self.axes[axis][name] = value.lower()
        elif name == 'peaks':
            self.axes[axis][name] = ' '.join(digits for digits, _, _ in amounts(value))
        elif name in AXIS and 'half period' not in name:
            quantity, how = AXIS[name]
            self.axes[axis][name] = self.whole(line, self.titles[axis], name, amounts(value)[0], quantity, how, axis)
        else:
            found, note, off = half_period(self.scales(axis), line, self.titles[axis], name, value)
            half = ('second ' if name.startswith('second') else '') + 'half period'
            self.axes[axis][half] = found
            if note:
                self.notes.append((line, note))
                self.offs.append((line, axis, half, off))

    def add_sways(self):
        """What each half period that is off leaves, said after what is said of it."""
        for line, axis, half, off in self.offs:
            size, name = self.scales(axis).unit or (Fraction(1), 'units')
            left = sway_left(self.axes[axis], half, off) * size
            sway = '%s %s' % (shown(left, 3, 'up'), name)
            told = ("; a pole that swings as entered keeps a sway of at most %s "
                    "(a real pole's is in proportion to it)" % sway)
            self.notes = [(at, note + told if at == line else note) for at, note in self.notes]

    def text(self):
        """The numbers as they are planned, an entry to a line, then the sentences
        in the order of their lines."""
        axes = [line for axis in sorted(self.axes) for line in
                ['axis %d' % axis] + ['%s %s' % entry for entry in sorted(self.axes[axis].items())]]
        notes = ['note ' + note for _, note in sorted(self.notes, key=lambda noted: noted[0])]
        return '\n'.join(sorted(self.head, key=lambda line: line.split()[0]) + axes + self.stops + notes) + '\n'


def drawn(seed, count):
    """Entries drawn at random, each with the whole number that is planned and the sentence: tick,
    unit, name, value, number, sentence."""
    draw = random.Random(seed)
    ticks = ['0.02', '0.005 s', '1 ms', '20 ms', '1/300', '0.0333', '2.5e-3']
    units = ['0.01 degree', '1/3 mm', '360/4096 degree', '0.25 step', '0.001 degree', 'mm']
    endings = {'position': [''], 'velocity': ['/s'], 'acceleration': ['/s²', '/s2', '/s^2']}
    made = []
    while len(made) < count:
        tick, unit = draw.choice(ticks), draw.choice(units)
        name = draw.choice(list(AXIS) + ['period', 'frequency', 'swings', 'second swings', 'second frequency'])
        scales = Scales(tick_of(tick), unit_of(unit))
        digits = '%.*f' % (draw.randrange(5), draw.choice([1, 10, 100]) * draw.random())
        quantity, how = AXIS.get(name, ('time', 'nearest'))
        if quantity == 'time':
            value = '%s %s' % (digits, draw.choice(['s', 's', 'ms', 'seconds']))
            value = {'frequency': digits + ' Hz',
                     'swings': '%d in %s' % (draw.randrange(1, 30), value)}.get(name.split()[-1], value)
        else:
            sign = '-' if 'limit' not in name and draw.random() < 0.5 else ''
            value = '%s%s %s%s' % (sign, digits, scales.unit[1], draw.choice(endings[quantity]))
        if name in AXIS and 'half' not in name:
            found, note, _ = scales.planned(1, '', name, value, amounts(value)[0], quantity, how)
        elif 'frequency' in name and number(digits) == 0:
            continue
        else:
            found, note, _ = half_period(scales, 1, '', name, value)
        kept_from_zero = quantity == 'time' and name != 'target tick' or 'limit' in name
        if not (kept_from_zero and found == 0 and number(digits) != 0):
            made.append((tick, unit, name, value, str(found), note[len('line 1: '):] if note else '-'))
    return made


def files():
    """Each stored file with its text."""
    for sheet in sorted((FOLDER / 'good').glob('*.sheet')):
        yield sheet.with_suffix('.txt'), Sheet(sheet.read_text(encoding='utf-8')).text()
    for sheet in sorted((FOLDER.parents[1] / 'sheets').glob('*.sheet')):
        yield FOLDER / 'examples' / (sheet.stem + '.txt'), Sheet(sheet.read_text(encoding='utf-8')).text()
    head = '# tick | unit | entry | value | planned | what is said of it. Made by tests/reference/sheets.py.\n'
    yield FOLDER / 'drawn.txt', head + ''.join(' | '.join(one) + '\n' for one in drawn(7, 800))


def is_stored():
    return all(path.exists() and path.read_text(encoding='utf-8') == text for path, text in files())


def main(arguments):
    if arguments == ['--check']:
        return 0 if is_stored() else 'tests/sheets is not what the reference gives'
    for path, text in ([] if arguments else files()):
        path.write_text(text, encoding='utf-8')
    for sheet in arguments:
        print(Sheet(Path(sheet).read_text(encoding='utf-8')).text(), end='')
    return 0


if __name__ == '__main__':
    sys.exit(main(sys.argv[1:]))
