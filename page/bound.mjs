// The proved bound of what a table leaves of a sway where the half period is off,
// as `Axis::sway_bound` in Rust works it out: theorem `sway-most` in
// docs/METHOD.md. Everything is whole numbers.

import { quotientUp } from './fraction.mjs';
import { LATEST_ARRIVAL } from './calls.mjs';

const LONGEST_PERIOD = 512n;
// A little more than 1/π.
const BY_PI = [106n, 333n];

// The weight of a damping by the planner's own rule: the greatest B that is at most the
// once-rounded ratio × (256 − B). It serves what is shown; the planner works out its own. Null
// where the planner refuses the damping with 12.
export function weightOf({ kind, numbers }) {
  if (kind === 'weight') return Number(numbers[0]);
  const ratio = ratioOf({ kind, numbers });
  if (!(ratio > 0 && ratio <= 1)) return null;
  for (let weight = 128; weight > 1; weight--) if (weight <= Math.fround(ratio * (256 - weight))) return weight;
  return 1;
}

// The ratio of a swing to the one before it, as entered.
export function ratioOf({ kind, numbers }) {
  if (kind === 'shrinks') return numbers[0];
  if (kind === 'peaks') return numbers[0] > 0 ? Math.fround(numbers[1] / numbers[0]) : NaN;
  return Number(numbers[0]) / (256 - Number(numbers[0]));
}

// Whether every number of an axis is in its range, so that a table of it has a bound.
function isInRange(axis) {
  const within = (name, least, greatest) => axis[name] === undefined || axis[name] >= least && axis[name] <= greatest;
  const speed = axis['speed limit'], acceleration = axis['acceleration limit'], latest = BigInt(LATEST_ARRIVAL);
  return within('speed limit', 1n, 1048576n) && within('acceleration limit', 1n, 65536n) &&
    within('half period', 0n, 256n) &&
    within('second half period', 1n, 256n) && within('start velocity', -speed, speed) &&
      within('target velocity', -speed, speed) &&
    within('target acceleration', -acceleration, acceleration) && within('target tick', -latest, latest) &&
    within('start position', -17179869184n, 17179869183n) && within('target position', -17179869184n, 17179869183n);
}

// The bound in fine steps for a half period that is off by top/bottom ticks (true less
// planned), or null where there is none.
export function swayBound(axis, entry, top, bottom) {
  const weight = weightOf(axis.damping);
  if (weight === null || weight < 1 || weight > 128 || !isInRange(axis)) return null;
  const hasSecond = axis['second half period'] !== undefined, second = BigInt(weight),
    isSecond = entry === 'second half period';
  const rate = isSecond ? { first: 1n, sum: 2n, others: 256n }
    : { first: 256n - second, sum: 256n, others: hasSecond ? 2n : 1n };
  const halfPeriod = axis[entry] * bottom + top;
  if (halfPeriod <= 0n || halfPeriod > LONGEST_PERIOD * bottom) return null;
  const [above, below] = BY_PI;
  const byDifference = rate.others * rate.first * (top < 0n ? -top : top);
  const square = halfPeriod * halfPeriod * above * above;
  const misfit = byDifference * halfPeriod * above * below, most = rate.others * rate.sum * square;
  const { changes, divisor } = changesOf(axis, hasSecond, weight);
  return quotientUp(changes * (misfit < most ? misfit : most), divisor * bottom * bottom * below * below);
}

// How much the planned accelerations of an axis change at most, and what a blended one is
// divided by to give fine steps.
function changesOf(axis, hasSecond, weight) {
  const isDamped = axis['half period'] > 0n && weight !== 128;
  const pull = axis.target === 'moving' ? axis['target acceleration'] : 0n, size = pull < 0n ? -pull : pull;
  const finer = hasSecond ? 2n : isDamped && size > 0n ? 256n : 1n;
  const changes = 256n * finer * (4n * axis['acceleration limit'] + size) + 2n;
  return { changes, divisor: finer * (hasSecond ? 512n : 256n) };
}
