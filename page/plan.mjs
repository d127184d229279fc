// Planning: everything here is asked of the library's calls. What is drawn and told is put
// together from its answers and cells.

import { axesOf } from './calls.mjs';
import { legOf } from './assembling.mjs';
import { refusalOfJob, refusalOfTour } from './refusal.mjs';
import { polesOf } from './sway.mjs';

// The plan of a setup: { ok: true, .. } or { ok: false, answer, told }.
export function planOf(library, setup) {
  return setup.kind === 'job' ? planOfJob(library, setup) : planOfTour(library, setup);
}

function planOfJob(library, setup) {
  const { job } = setup, answer = library.planJob(job);
  if (answer.number) return { kind: 'job', ok: false, answer, told: refusalOfJob(library, setup, job, answer) };
  const rows = rowsOf(answer), unblended = unblendedOf(library, job);
  return { kind: 'job', ok: true, answer, arrival: answer.arrival, rows, unblended, job,
    last: lastTick(job, answer.arrival) };
}

// The rows of an accepted answer by axis: position, velocity and acceleration in fine
// steps, from tick 0 to the arrival.
function rowsOf({ mask, arrival, table }) {
  const numbers = axesOf(mask), rows = [];
  numbers.forEach((number, place) => {
    const columns = [0, 1, 2].map(() => new Float64Array(arrival + 1));
    for (let tick = 0, at = 3 * place; tick <= arrival; tick++, at += 3 * numbers.length) {
      for (let column = 0; column < 3; column++) columns[column][tick] = table[at + column];
    }
    rows[number] = { position: columns[0], velocity: columns[1], acceleration: columns[2] };
  });
  return rows;
}

// The same job with half period 0 on every axis and no second one: { arrival, rows }, { refused }
// or null where no axis has a blend.
function unblendedOf(library, job) {
  if (!job.axes.some(axis => axis && polesOf(axis).length)) return null;
  const without = axis => axis && { ...axis, 'half period': 0n, 'second half period': undefined };
  const answer = library.planJob({ ...job, axes: job.axes.map(without) });
  return answer.number ? { refused: answer.number } : { arrival: answer.arrival, rows: rowsOf(answer) };
}

// The last tick to draw: a period or two of the slowest pole after the arrival, so that
// what is left of the sway shows.
function lastTick(job, arrival) {
  const slowest = Math.max(0, ...job.axes.filter(axis => axis).map(axis =>
    Math.max(Number(axis['half period']), Number(axis['second half period'] ?? 0n))));
  const after = slowest === 0 ? Math.max(Math.floor(arrival / 12), 1)
    : Math.min(Math.max(Math.floor(arrival / 2), 2 * slowest), 4 * slowest);
  const dwell = job.windows ? Number(job.windows.dwell) : 0;
  return arrival + Math.max(after, dwell + Math.floor(dwell / 4));
}

function planOfTour(library, setup) {
  const { tour, stops } = setup, answer = library.planTour(tour, stops);
  if (answer.number) return { kind: 'tour', ok: false, answer, told: refusalOfTour(library, setup, answer) };
  let departure = 0;
  const legs = stops.map((stop, index) => {
    const job = legOf(tour, stops, index), planned = library.planJob(job), arrival = answer.arrivals[index];
    const leg = { index, departure, arrival, dwell: Number(stop.dwell), job, ticks: planned.arrival,
      rows: rowsOf(planned) };
    departure = arrival + leg.dwell;
    return leg;
  });
  return { kind: 'tour', ok: true, answer, total: answer.total, legs, last: Math.max(answer.total, 1) };
}

// The least and the greatest position of an axis, in fine steps.
export function rangeOf(rows) {
  let least = rows.position[0], greatest = least;
  for (const position of rows.position) {
    if (position < least) least = position;
    if (position > greatest) greatest = position;
  }
  return { least, greatest };
}
