// Numbers as they are written on a sheet, each with the measure that stands after it, and
// what a tick and a unit stand for.

import { Fraction } from './fraction.mjs';

// A hyphen, or what editors put in its place: minus, en dash, hyphen, hyphen that does not break.
const MINUS = '\u2212\u2013\u2010\u2011';
const NUMBER = new RegExp(`^[+\\-${MINUS}]?(?:[0-9]+\\.?[0-9]*|\\.[0-9]+)`);
const POWER = new RegExp(`^[eE][+\\-${MINUS}]?[0-9]{1,2}(?![0-9])`);
const LONGEST = 40;

// The number that a word begins with and what follows it, or null.
export function splitNumber(word) {
  const begun = NUMBER.exec(word);
  if (!begun) return null;
  const after = word.slice(begun[0].length), power = POWER.exec(after);
  const digits = begun[0] + (power ? power[0] : '');
  return { digits, rest: word.slice(digits.length) };
}

// The fraction of a number as it is written, or null where it is too long.
export function fractionOf(digits) {
  if ([...digits].length > LONGEST) return null;
  const plain = withHyphens(digits).toLowerCase(), [number, power = '0'] = plain.split('e');
  return Fraction.read(number.startsWith('-'), number.replace(/^[+-]/, ''), Number(power));
}

function withHyphens(text) {
  return text.replace(new RegExp(`[${MINUS}]`, 'g'), '-');
}

// The amounts that words say, one after the other: { text, digits, measure }; null where
// they do not begin with a number.
export function amountsOf(words) {
  const found = [];
  for (const word of words) {
    const number = splitNumber(word), last = found[found.length - 1];
    if (number) {
      found.push({ text: word, digits: number.digits, measure: number.rest.toLowerCase() });
    } else if (last) {
      last.text += ' ' + word;
      last.measure = ((last.measure && last.measure + ' ') + word.toLowerCase()).replaceAll(' /', '/').replaceAll('/ ',
        '/');
    } else {
      return null;
    }
  }
  return found;
}

// The only amount that words say, or null.
export function onlyAmount(words) {
  const found = amountsOf(words);
  return found && found.length === 1 ? found[0] : null;
}

// How many of a measure of time are a second, or null.
export function partsOfSecond(measure) {
  if (['s', 'sec', 'second', 'seconds'].includes(measure)) return 1;
  return ['ms', 'millisecond', 'milliseconds'].includes(measure) ? 1000 : null;
}

// The seconds of a time, or null.
export function secondsOf(amount) {
  const parts = partsOfSecond(amount.measure), number = fractionOf(amount.digits);
  return parts && number && number.over(Fraction.whole(parts));
}

// Whether two names are the same, in whatever case, in the singular or in the
// plural; `deg` and `°` are degrees.
export function isName(found, name) {
  return singular(found) === singular(name);
}

function singular(name) {
  const small = name.toLowerCase();
  const one = small.endsWith('s') && [...small].length >= 3 ? small.slice(0, -1) : small;
  return ['deg', '°', 'º', '˚'].includes(one) ? 'degree' : one;
}

// Whether an amount is in a unit, with one of the endings of its quantity.
export function isInUnit(amount, name, endings) {
  return endings.some(ending => amount.measure.endsWith(ending) &&
    isName(amount.measure.slice(0, amount.measure.length - ending.length), name));
}

// A whole number of 32 bits from 0 up, as a BigInt, or null.
export function readUnsigned(word) {
  return readWhole(word, /^\+?[0-9]+$/, 0n, 2n ** 32n - 1n);
}

// A whole number of 64 bits, as a BigInt, or null; below zero with a hyphen or any other minus
// sign.
export function readSigned(word) {
  const plain = word.replace(new RegExp(`^[${MINUS}](?=[0-9])`), '-');
  return readWhole(plain, /^[+-]?[0-9]+$/, -(2n ** 63n), 2n ** 63n - 1n);
}

function readWhole(word, form, least, greatest) {
  if (!form.test(word)) return null;
  const number = BigInt(word.replace(/^\+/, ''));
  return number >= least && number <= greatest ? number : null;
}

// A finite single-precision float, rounded once from what is written, or null.
export function readFloat(word) {
  const plain = word.replace(new RegExp(`^[${MINUS}]`), '-');
  if (!/^[+-]?([0-9]+\.?[0-9]*|\.[0-9]+)([eE][+-]?[0-9]+)?$/.test(plain)) return null;
  const double = Number(plain), single = Math.fround(double);
  if (!Number.isFinite(single)) return null;
  const other = neighbour(single, double > single);
  // A double in the middle of two singles may itself be rounded: what is written says to which
  // side.
  if (double === single || double !== (single + other) / 2) return single;
  const [number, power = '0'] = plain.toLowerCase().split('e');
  const exact = Fraction.read(number.startsWith('-'), number.replace(/^[+-]/, ''), Number(power));
  const off = exact.minus(Fraction.ofFloat(double));
  if (off.isZero) return single;
  return off.isNegative ? Math.min(single, other) : Math.max(single, other);
}

// The single-precision float next to one, above or below it.
function neighbour(single, above) {
  const view = new DataView(new ArrayBuffer(4));
  view.setFloat32(0, single);
  if (single === 0) return (above ? 1 : -1) * 2 ** -149;
  view.setInt32(0, view.getInt32(0) + (above === single > 0 ? 1 : -1));
  return view.getFloat32(0);
}

// The seconds of a tick, from the words after `tick`: { exact, text }, or null.
export function readTick(words) {
  const begun = words.length ? readSize(words[0]) : null;
  if (!begun) return null;
  const measure = begun.rest + words.slice(1).join(' ');
  const parts = measure === '' ? 1 : partsOfSecond(measure.toLowerCase());
  return parts && { exact: begun.size.over(Fraction.whole(parts)), text: words.join(' ') };
}

// The size and the name of a unit, from the words after `unit`: { exact, text, name }, or null.
export function readUnit(words) {
  if (!words.length) return null;
  const begun = readSize(words[0]);
  const named = begun ? [begun.rest, ...words.slice(1)].filter(word => word) : words;
  if (!named.length || named.some(word => splitNumber(word))) return null;
  const text = begun ? words[0].slice(0, words[0].length - begun.rest.length) : '1';
  return { exact: begun ? begun.size : Fraction.whole(1), text, name: named.join(' ') };
}

// The size that a word begins with, a number above 0 or a quotient of two, and what follows it in
// the word.
function readSize(word) {
  const number = splitNumber(word);
  if (!number) return null;
  const divisor = number.rest.startsWith('/') ? splitNumber(number.rest.slice(1)) : null;
  const top = fractionOf(number.digits), bottom = divisor ? fractionOf(divisor.digits) : Fraction.whole(1);
  if (!top || !bottom || !bottom.isAboveZero || !top.isAboveZero) return null;
  return { size: top.over(bottom), rest: divisor ? divisor.rest : number.rest };
}
