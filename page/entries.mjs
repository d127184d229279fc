// The entries of a set-up sheet: their names, what is expected after each, and how each is rounded.
// docs/SHEET.md is the format's page.

import { Fraction } from './fraction.mjs';
import { amountsOf, onlyAmount, readFloat, readUnsigned } from './amount.mjs';

// The names that begin a line, in the order in which a misspelt one is held against them.
const NAMES = [
  'arrival', 'window', 'dwell', 'tick', 'unit', 'axis', 'stop', 'half period', 'period', 'frequency', 'swings',
    'weight', 'shrinks',
  'peaks', 'second half period', 'second period', 'second frequency', 'second swings', 'speed limit',
    'acceleration limit',
  'start position', 'start velocity', 'target position', 'target velocity', 'target acceleration', 'target tick',
    'target still',
  'target moving', 'target flying',
];
export const TARGETS = ['still', 'flying', 'moving'];

// The numbers of an axis, in the order in which a sheet is written; the damping stands after the
// half period.
export const ENTRIES = [
  'half period', 'weight', 'second half period', 'speed limit', 'acceleration limit', 'start position',
    'start velocity',
  'target position', 'target velocity', 'target acceleration', 'target tick',
];
export const TOUR_ENTRIES = ['half period', 'second half period', 'speed limit', 'acceleration limit',
  'start position'];

// The lines of an axis that are numbers, in the order in which they are tried,
// each with the entry that it says.
export const NUMBER_LINES = [
  ['half period', 'half period'], ['period', 'half period'], ['frequency', 'half period'], ['swings', 'half period'],
  ['second half period', 'second half period'], ['second period', 'second half period'],
  ['second frequency', 'second half period'], ['second swings', 'second half period'],
  ...ENTRIES.slice(3).map(name => [name, name]),
];

// The lines that say the damping.
export const DAMPING = '`weight`, `shrinks` or `peaks`';
export const DAMPING_LINES = [
  ['weight', 'a whole number from 1 to 128', words => words.length === 1 ? all([readUnsigned(words[0])]) : null],
  ['shrinks', 'a number above 0 and at most 1', words => words.length === 1 ? all([readFloat(words[0])]) : null],
  ['peaks', 'two numbers above 0, the second not above the first,', readPeaks],
];

function all(numbers) {
  return numbers.includes(null) ? null : numbers;
}

// Two peaks, whose measure is the same, or that of the second alone.
function readPeaks(words) {
  const plain = words.length === 2 && all(words.map(readFloat));
  if (plain) return plain;
  const found = amountsOf(words);
  if (!found || found.length !== 2 || found[0].measure && found[0].measure !== found[1].measure) return null;
  return all(found.map(amount => readFloat(amount.digits)));
}

// What a number measures: the names of its steps, and what may stand after a
// unit's name, first what is shown.
export const QUANTITIES = {
  time: { one: 'tick', many: 'ticks' },
  position: { one: 'unit', many: 'units', endings: [''] },
  velocity: { one: 'unit per tick', many: 'units per tick', endings: ['/s'] },
  acceleration: { one: 'unit per tick²', many: 'units per tick²', endings: ['/s²', '/s2', '/s^2'] },
};

// The measure of a crew that names its unit.
export function measureOf(quantity, unit) {
  return quantity === 'time' ? 's' : unit + QUANTITIES[quantity].endings[0];
}

// How an entry is rounded: what it measures, which way, whether it may be below 0, and
// whether it is kept from coming to 0.
const RULES = {
  'speed limit': ['velocity', 'down', false, true],
  'acceleration limit': ['acceleration', 'down', false, true],
  'start position': ['position', 'nearest', true, false],
  'target position': ['position', 'nearest', true, false],
  'start velocity': ['velocity', 'nearest', true, false],
  'target velocity': ['velocity', 'nearest', true, false],
  'target acceleration': ['acceleration', 'nearest', true, false],
  'target tick': ['time', 'nearest', true, false],
  'half period': ['time', 'nearest', false, true],
  'second half period': ['time', 'nearest', false, true],
  arrival: ['time', 'nearest', false, true],
  dwell: ['time', 'up', false, false],
  'window opening': ['time', 'up', false, false],
  'window closing': ['time', 'down', false, false],
};

export function ruleOf(entry) {
  const [quantity, rounding, isSigned, isKept] = RULES[entry];
  return { quantity, rounding, isSigned, isKept };
}

// What stands after the name of a number's line: the amount, and how the entry follows from it: a
// part of it, or as a frequency.
export function readNumberLine(name, words) {
  const plain = name.replace(/^second (?!half)/, '');
  if (plain === 'swings') {
    const count = words.length ? readUnsigned(words[0]) : null, time = count && after(words.slice(1), 'in');
    const amount = time && onlyAmount(time);
    return amount && { amount, part: new Fraction(1n, 2n * count) };
  }
  const amount = onlyAmount(words);
  return amount && { amount, part: plain === 'period' ? new Fraction(1n, 2n) : null,
    isFrequency: plain === 'frequency' };
}

// What is expected after the name of a number's line, on an axis whose unit has a name.
export function expectedAfter(name, unit) {
  return `${EXPECTED[name.replace(/^second (?!half)/, '')](unit)} after \`${name}\``;
}

const POSITION = unit => `a whole number of units from -17179869184 to 17179869183, or one as in \`-3.5 ${unit}\`,`;
const VELOCITY = unit => `a whole number of units per tick, or one as in \`2.5 ${unit}/s\`,`;
const EXPECTED = {
  period: () => 'a whole number of ticks, or seconds as in `0.84 s`,',
  frequency: () => 'a number above 0 of swings there and back in a second, as in `1.19 Hz`,',
  swings: () => 'how many swings there and back in which time, as in `10 in 8.4 s`,',
  'half period': () => 'a whole number of ticks from 0 to 256, or seconds as in `0.42 s`,',
  'second half period': () => 'a whole number of ticks from 1 to 256, or seconds as in `0.15 s`,',
  'speed limit': unit => `a whole number of units per tick from 1 to 1048576, or one as in \`60 ${unit}/s\`,`,
  'acceleration limit': unit => `a whole number of units per tick² from 1 to 65536, or one as in \`300 ${unit}/s²\`,`,
  'start position': POSITION,
  'target position': POSITION,
  'start velocity': VELOCITY,
  'target velocity': VELOCITY,
  'target acceleration': unit => `a whole number of units per tick², or one as in \`0.5 ${unit}/s²\`,`,
  'target tick': () => 'a whole number of ticks from -4096 to 4096, or seconds as in `-0.8 s`,',
};

// What is expected after the names of the whole sheet's lines.
export const ARRIVAL = '`earliest`, a tick from 1 to 4096, or seconds as in `2.2 s`, after `arrival`';
export const STOP =
  'a position for each axis, `dwell` and a whole number of ticks from 0 to 4096, or seconds as in `1 s`, after `stop`';
export const WINDOW =
  'an opening and a closing, both ticks from 0 to 4294967295 or both seconds as in `0.4 s 1.2 s`, after `window`';
export const DWELL = 'a whole number of ticks from 0 to 4096, or seconds as in `0.5 s`, after `dwell`';

// What follows a name of one word or several at the head of a line, in whatever case it is written,
// or null.
export function after(words, name) {
  const parts = name.split(' ');
  return parts.every((part, place) => sameWord(words[place], part)) ? words.slice(parts.length) : null;
}

// Whether a word is another, in whatever case of the letters a to z.
export function sameWord(word, other) {
  return word !== undefined && word.replace(/[A-Z]/g, letter => letter.toLowerCase()) === other;
}

// Words of a line between quotes, or the end of the line.
export function quoted(words) {
  return words.length ? `\`${words.join(' ')}\`` : 'the end of the line';
}

// Whether a line begins with a name of a sheet.
export function isKnown(words) {
  return NAMES.some(name => after(words, name)) ||
    after(words, 'target') !== null && (words[1] === undefined || TARGETS.some(kind => sameWord(words[1], kind)));
}

// The name that is nearest to that of a line, and how many words stand in its place, or null.
export function nearestName(words) {
  let found = null;
  for (const name of NAMES) {
    for (let count = 1; count <= Math.min(words.length, 3); count++) {
      const far = distance([...words.slice(0, count).join(' ').toLowerCase()], [...name]);
      const allowed = name.length <= 5 ? 1 : name.length <= 10 ? 2 : 3;
      if (far <= allowed && (!found || far < found.far)) found = { name, count, far };
    }
  }
  return found;
}

// How many letters are to be put in, left out, changed, or exchanged with their neighbour.
function distance(from, to) {
  let before = [], last = to.map((_, place) => place).concat(to.length);
  from.forEach((letter, i) => {
    const row = [i + 1];
    to.forEach((wanted, j) => {
      let least = Math.min(last[j] + (letter === wanted ? 0 : 1), last[j + 1] + 1, row[j] + 1);
      if (i > 0 && j > 0 && letter === to[j - 1] && from[i - 1] === wanted) least = Math.min(least, before[j - 1] + 1);
      row.push(least);
    });
    [before, last] = [last, row];
  });
  return last[to.length];
}
