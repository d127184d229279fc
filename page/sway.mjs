// The sway of a pole under the accelerations of a table: an oscillator that swings over in its half
// period and whose swing shrinks to its ratio in that time, both as entered. It is for pictures
// alone, and a real pole's sway is in proportion to it.

import { ratioOf, weightOf } from './bound.mjs';

// The poles that the blend of an axis cancels: { name, halfPeriod, ratio }, the second one
// undamped.
export function polesOf(axis, entered = {}) {
  const poles = [], first = Number(axis['half period']), second = axis['second half period'];
  if (first > 0 && weightOf(axis.damping) !== null) {
    poles.push({ name: 'sway', halfPeriod: entered['half period'] ?? first, ratio: ratioOf(axis.damping) });
  }
  if (second > 0n) poles.push({ name: 'second sway', halfPeriod: entered['second half period'] ?? Number(second),
    ratio: 1 });
  return poles;
}

// The half periods of an axis as entered, in ticks, where they were rounded.
export function enteredPeriods(notes, number, axis) {
  const entered = {};
  for (const note of notes.filter(note => note.axis === number && note.entry.endsWith('half period'))) {
    entered[note.entry] = Number(axis[note.entry]) - note.stepsOff.toNumber();
  }
  return entered;
}

// What a time under a constant acceleration does to a swing, by the oscillator's own solution.
function stepOf({ swing, decay, stiffness }, time) {
  const remains = Math.exp(-decay * time), turned = remains * Math.sin(swing * time) / swing,
    cosine = remains * Math.cos(swing * time);
  return { kept: cosine + decay * turned, gained: turned, slowed: -stiffness * turned,
    carried: cosine - decay * turned };
}

function oscillatorOf({ halfPeriod, ratio }) {
  const swing = Math.PI / halfPeriod, decay = -Math.log(ratio) / halfPeriod;
  return { swing, decay, stiffness: swing * swing + decay * decay };
}

// The sway from tick 0 to a last tick: points of (tick, value) one after the
// other, and what is left of it from a tick on. Each row's acceleration holds
// to the next, the last one's from then on.
export function swayOf(pole, accelerations, last, arrival = accelerations.length - 1) {
  const oscillator = oscillatorOf(pole), parts = Math.ceil(16 / pole.halfPeriod), step = stepOf(oscillator, 1 / parts);
  const count = last * parts + 1, ticks = new Float64Array(count), values = new Float64Array(count);
  let x = 0, v = 0, left = 0;
  for (let tick = 0, at = 0; tick < last; tick++) {
    const rest = -accelerations[Math.min(tick, accelerations.length - 1)] / oscillator.stiffness;
    if (tick === arrival) left = greatestOf(oscillator, x - rest, v);
    for (let part = 1; part <= parts; part++) {
      const offset = x - rest;
      x = rest + step.kept * offset + step.gained * v;
      v = step.slowed * offset + step.carried * v;
      at += 1;
      ticks[at] = tick + part / parts;
      values[at] = x;
    }
  }
  if (arrival >= last) left = greatestOf(oscillator,
    x + accelerations[accelerations.length - 1] / oscillator.stiffness, v);
  return { ticks, values, left };
}

// The greatest distance from rest of a free swing: at its beginning, or where it first turns back.
function greatestOf(oscillator, x, v) {
  const slope = (oscillator.decay * v + oscillator.stiffness * x) / oscillator.swing;
  const angle = Math.atan(v / slope), time = (angle < 0 ? angle + Math.PI : angle) / oscillator.swing;
  const { kept, gained } = stepOf(oscillator, time), turned = Math.abs(kept * x + gained * v);
  return Number.isNaN(turned) ? Math.abs(x) : Math.max(turned, Math.abs(x));
}
