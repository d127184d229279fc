// How numbers are shown: in units and ticks, or in what the sheet says that these stand for.

import { FINE_STEPS } from './calls.mjs';

// How the numbers of an axis are shown: what a fine step of each quantity is,
// and the names of the measures.
export function measuresOf(setup, number) {
  const unit = setup.worked.unitOf(number), tick = setup.worked.tick?.exact?.toNumber() ?? null;
  const size = unit?.exact?.toNumber() ?? 1, name = unit?.exact ? unit.name : 'units',
    by = tick === null ? 'tick' : 's';
  const per = tick ?? 1;
  return {
    tick, name, isPlain: tick === null && size === 1 && name === 'units',
    sizes: [size, size / per, size / (per * per)], names: [name, `${name}/${by}`, `${name}/${by}²`],
    fine: [size / FINE_STEPS, size / per / FINE_STEPS, size / (per * per) / FINE_STEPS],
  };
}

// Whether a tick fits a window of a job with its dwell, as the header says it.
export function fitsWindow({ dwell, list }, tick) {
  return list.some(({ opening, closing }) => opening <= tick && tick < closing && tick + dwell <= closing);
}

// A float with at most so many significant digits, without noughts at its end, and without
// a power of ten where it can be.
export function shownFloat(value, digits = 6) {
  if (value === 0 || !Number.isFinite(value)) return String(value);
  const short = Number(value.toPrecision(digits)), size = Math.abs(short);
  if (size >= 1e-6 && size < 1e21) return String(short);
  const decimals = Math.min(100, digits - 1 - Math.floor(Math.log10(size)));
  return size < 1e-6 ? short.toFixed(decimals).replace(/0+$/, '') : String(short);
}

// What is left of a sway, in three digits; below a millionth it is 0, for floats carry no further.
export function swayTold(value) {
  return value < 1e-6 ? '0' : shownFloat(value, 3);
}
