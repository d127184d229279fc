// From what is entered to whole ticks and units, and what is said of an entry that no whole number
// meets.

import { Fraction } from './fraction.mjs';
import { AXES } from './calls.mjs';
import { fractionOf, isInUnit, readSigned, readUnsigned, secondsOf } from './amount.mjs';
import { QUANTITIES, measureOf, ruleOf } from './entries.mjs';
import { swayBound } from './bound.mjs';

// What is wrong with a line.
export class SheetError extends Error {
  constructor(line, expected, found) {
    super(`line ${line}: expected ${expected}, found ${found}`);
    Object.assign(this, { line, expected, found });
  }
}

// A line or a scale that cannot be read has been told of: what asks for it is left out.
const UNTOLD = Symbol('told elsewhere');

// What turns entries into whole ticks and units, and what was found on the way.
export class Worked {
  constructor() {
    Object.assign(this, { tick: null, common: null, own: [], rounded: [], lacksTick: false, lacksUnit: [] });
  }

  // The unit of an axis, whether or not its line can be read, or null.
  unitOf(axis) {
    return this.own[axis] ?? this.common;
  }

  // The whole number of an entry, or null where it cannot be told because of another line, of which
  // that is told. A place is { line, axis, entry, whose, name, entered, expected }.
  whole(place, amount, share = {}) {
    const rule = ruleOf(place.entry);
    if (!amount.measure && !share.part && !share.isFrequency) return counted(amount, rule) ?? unexpected(place);
    const measured = this.measured(place, amount, share, rule);
    if (measured === UNTOLD) return null;
    if (share.part) Object.assign(measured, { value: measured.value.times(share.part), isWorkedOut: true });
    const number = measured.value.over(measured.step).rounded(rule.rounding);
    const least = rule.isSigned ? -(2n ** 63n) + 1n : 0n, greatest = rule.isSigned ? 2n ** 63n - 1n : 2n ** 32n - 1n;
    if (number < least || number > greatest || !rule.isSigned && measured.value.isNegative) unexpected(place);
    if (number === 0n && rule.isKept && !measured.value.isZero) this.comesToNothing(place, measured);
    const note = roundedNote(place, measured, number);
    if (note) this.rounded.push(note);
    return number;
  }

  // A number in its measure: { value, step, name, quantity, isScaled, isWorkedOut }.
  measured(place, amount, share, { quantity, isSigned }) {
    if (!amount.measure) {
      const number = share.isFrequency ? null : counted(amount, { isSigned });
      if (number === null) unexpected(place);
      return { value: new Fraction(number), step: Fraction.whole(1), name: QUANTITIES[quantity].many, quantity };
    }
    const number = fractionOf(amount.digits);
    if (share.isFrequency) {
      if (!number || !number.isAboveZero || amount.measure !== 'hz') unexpected(place);
      const value = Fraction.whole(1).over(number.times(Fraction.whole(2)));
      return this.scaled(value, this.tickFor(place), 's', quantity, true);
    }
    if (!number) unexpected(place);
    if (quantity !== 'time') return this.inUnits(place, amount, number, quantity);
    return this.scaled(secondsOf(amount) ?? unexpected(place), this.tickFor(place), 's', quantity, false);
  }

  scaled(value, step, name, quantity, isWorkedOut) {
    return step === UNTOLD ? UNTOLD : { value, step, name, quantity, isScaled: true, isWorkedOut };
  }

  inUnits(place, amount, value, quantity) {
    const unit = this.unitFor(place);
    if (unit === UNTOLD) return UNTOLD;
    const name = measureOf(quantity, unit.name);
    if (!isInUnit(amount, unit.name, QUANTITIES[quantity].endings)) {
      throw new SheetError(place.line, `a whole number, or one of \`${name}\`, after \`${place.name}\``,
        `\`${place.entered}\``);
    }
    if (quantity === 'position') return this.scaled(value, unit.exact, name, quantity, false);
    const tick = this.tickFor(place);
    if (tick === UNTOLD) return UNTOLD;
    const byTick = unit.exact.over(tick);
    return this.scaled(value, quantity === 'velocity' ? byTick : byTick.over(tick), name, quantity, false);
  }

  // The exact seconds of a tick, which an entry asks for. That they are lacking is told once.
  tickFor(place) {
    if (this.tick) return this.tick.exact ?? UNTOLD;
    if (this.lacksTick) return UNTOLD;
    this.lacksTick = true;
    throw new SheetError(place.line, '`tick` with its seconds on the sheet',
      `none for \`${place.name} ${place.entered}\``);
  }

  // The unit of an entry's axis. That it is lacking is told once for an axis; one whose
  // own line is wrong has number 6.
  unitFor(place) {
    const unit = this.unitOf(place.axis);
    if (unit || place.axis >= AXES) return unit && unit.exact && place.axis < AXES ? unit : UNTOLD;
    if (this.lacksUnit[place.axis]) return UNTOLD;
    this.lacksUnit[place.axis] = true;
    const expected = `\`unit\` for axis ${place.axis}, or before the axes`;
    throw new SheetError(place.line, expected, `none for \`${place.name} ${place.entered}\``);
  }

  // An entry that is not 0 and would be rounded to 0: which tick or unit would do.
  comesToNothing(place, measured) {
    const { value, step, quantity } = measured, { one, many } = QUANTITIES[quantity];
    const least = quantity === 'time' ? 'half a tick' : `1 ${one}`;
    const found = `\`${place.entered}\`, which is ${value.over(step).shown(3)} ${many}`;
    const would = measured.isScaled ? this.whatWouldDo(place, measured) : '';
    throw new SheetError(place.line, `at least ${least} after \`${place.name}\``, found + would);
  }

  // Which tick, or which unit, makes at least one of what is entered: numbers
  // of three digits that are enough.
  whatWouldDo(place, { value, quantity }) {
    if (quantity === 'time') return `; \`tick ${value.shown(3, 'down')}\` or a shorter one would do`;
    const tick = this.tick.exact, { exact, name } = this.unitOf(place.axis), by = exact.over(value);
    const isSquare = quantity === 'acceleration';
    const longer = isSquare ? by.rootShown() : by.shown(3, 'up');
    const finer = (isSquare ? value.times(tick).times(tick) : value.times(tick)).shown(3, 'down');
    return `; \`tick ${longer}\` or a longer one would do, or \`unit ${finer} ${name}\` or a finer one`;
  }

  // Works out what the half periods of an axis that are off leave of a sway.
  weigh(number, axis) {
    const unit = this.unitOf(number), { exact, name } = unit &&
      unit.exact ? unit : { exact: Fraction.whole(1), name: 'units' };
    for (const note of this.rounded.filter(note => note.axis === number && note.entry.endsWith('half period'))) {
      const size = note.stepsOff.size().times(Fraction.whole(10000)).rounded('up');
      if (size >= 2n ** 31n) continue;
      const left = swayBound(axis, note.entry, note.stepsOff.isNegative ? size : -size, 10000n);
      if (left !== null) note.sway = `${new Fraction(left, 256n).times(exact).shown(3, 'up')} ${name}`;
    }
  }
}

// The error of an entry that is not what is expected in its place.
function unexpected(place) {
  throw new SheetError(place.line, place.expected, `\`${place.entered}\``);
}

// A number without a measure: whole ticks or units, or null.
function counted(amount, { isSigned }) {
  return isSigned ? readSigned(amount.digits) : readUnsigned(amount.digits);
}

// What is said of an entry for which a whole number is planned; null where it is exactly that.
function roundedNote(place, measured, number) {
  const planned = new Fraction(number).times(measured.step), off = planned.minus(measured.value);
  if (off.isZero) return null;
  const { one, many } = QUANTITIES[measured.quantity], named = text => `${text} ${measured.name}`;
  const steps = `${number} ${number === 1n || number === -1n ? one : many}`;
  return {
    line: place.line, axis: place.axis, entry: place.entry, whose: place.whose,
    entered: `${place.name} ${place.entered}`,
    comesTo: measured.isWorkedOut ? `, a half period of ${named(measured.value.shown(9))},` : '',
    planned: measured.isScaled ? `${named(planned.shown(9))} (${steps})` : steps,
    off: `${named(off.size().shown(3))} ${off.isNegative ? 'less' : 'more'}`,
    stepsOff: off.over(measured.step), sway: null,
  };
}

// The sentence for a crew, without its line.
export function noteTold(note, withWhose = true) {
  const whose = withWhose && note.whose ? note.whose + ': ' : '';
  const sway = note.sway
    ? `; a pole that swings as entered keeps a sway of at most ${note.sway} (a real pole's is in proportion to it)`
      : '';
  return `${whose}${note.entered}${note.comesTo} is planned as ${note.planned}, ${note.off}${sway}`;
}
