// Putting a setup together from what was read of a sheet: the job or the tour, and what is
// lacking or does not belong to it.

import { SheetError } from './worked.mjs';
import { DAMPING, TOUR_ENTRIES, STOP } from './entries.mjs';

const NO_DAMPING = { kind: 'weight', numbers: [128n] };
const NONE = 'none among its lines';

// What to call an axis: `axis 0`, or `axis 0 pan` where the sheet names it.
export function titleOf(names, number) {
  return names[number] ? `axis ${number} ${names[number]}` : `axis ${number}`;
}

// Whether a target of a kind has an entry on the sheet.
export function targetHas(kind, entry) {
  if (entry === 'target velocity') return kind !== 'still';
  return !['target acceleration', 'target tick'].includes(entry) || kind === 'moving';
}

// The sheet of a job.
export function jobOf(reading) {
  const job = { asked: 0n, axes: new Array(6).fill(null), windows: null };
  for (const draft of reading.drafts) {
    job.axes[draft.number] = jobAxis(reading, draft);
    reading.worked.weigh(draft.number, job.axes[draft.number]);
  }
  const lacking = '`arrival earliest`, `arrival` with a tick, or the `stop` of a tour';
  if (reading.arrival === null) reading.endsWithout(lacking);
  else job.asked = reading.arrival;
  if (!reading.dwellLine && reading.windowLines.length) {
    reading.fault(reading.windowLines[0], '`dwell` beside `window`', 'none on the sheet');
  }
  if (reading.dwell !== null) job.windows = { dwell: reading.dwell, list: reading.windows };
  return { kind: 'job', job };
}

// The number of an entry, or that it is lacking.
function numberOf(reading, draft, entry) {
  if (draft.lines[entry]) return draft.entries[entry];
  reading.fault(draft.line, `\`${entry}\` for axis ${draft.number}`, NONE);
  return 0n;
}

// What an axis of a job and one of a tour have alike.
function limitsOf(reading, draft) {
  const axis = { 'half period': numberOf(reading, draft, 'half period'), damping: draft.damping ?? NO_DAMPING };
  if (!draft.damping) reading.fault(draft.line, `${DAMPING} for axis ${draft.number}`, NONE);
  if (draft.lines['second half period']) axis['second half period'] = draft.entries['second half period'];
  for (const name of ['speed limit', 'acceleration limit', 'start position']) axis[name] = numberOf(reading, draft,
    name);
  return axis;
}

function jobAxis(reading, draft) {
  const axis = { ...limitsOf(reading, draft), 'start velocity': numberOf(reading, draft, 'start velocity'),
    target: 'still' };
  if (!draft.target) reading.fault(draft.line, `\`target still\` or \`target moving\` for axis ${draft.number}`, NONE);
  if (!draft.target || !draft.target.kind) return { ...axis, 'target position': 0n };
  const { kind, line } = draft.target;
  for (const [entry, at] of Object.entries(draft.lines).filter(([entry]) => !targetHas(kind, entry))) {
    reading.fault(at, `no \`${entry}\``, `\`${entry}\` beside \`target ${kind}\` of line ${line}`);
  }
  axis.target = kind;
  for (const entry of ['target position', 'target velocity', 'target acceleration', 'target tick']) {
    if (targetHas(kind, entry)) axis[entry] = numberOf(reading, draft, entry);
  }
  return axis;
}

// The sheet of a tour.
export function tourOf(reading) {
  const first = reading.stops[0].line, beside = name => `\`${name}\` beside \`stop\` of line ${first}`;
  const refuse = (line, name) => reading.fault(line, `no \`${name}\``, beside(name));
  if (reading.arrivalLine) refuse(reading.arrivalLine, 'arrival');
  for (const line of reading.windowLines) refuse(line, 'window');
  if (reading.dwellLine) refuse(reading.dwellLine, 'dwell');
  const axes = new Array(6).fill(null);
  for (const draft of reading.drafts) {
    const unwanted = Object.entries(draft.lines).filter(([entry]) => !TOUR_ENTRIES.includes(entry));
    for (const [entry, line] of unwanted) refuse(line, entry);
    if (draft.target) refuse(draft.target.line, 'target');
    const axis = axes[draft.number] = limitsOf(reading, draft);
    reading.worked.weigh(draft.number, legAxis(axis, axis['start position'], axis['start position']));
  }
  const stops = reading.stops.map((stop, index) => {
    let positions = new Array(6).fill(0n);
    reading.keep(stop, () => { positions = positionsOf(reading, stop, index, axes); });
    return { positions, dwell: stop.dwell };
  });
  return { kind: 'tour', tour: { axes }, stops, stopLines: reading.stops.map(stop => stop.line) };
}

// The positions of a stop, one for each axis.
function positionsOf(reading, stop, index, axes) {
  const positions = new Array(6).fill(0n), entered = reading.drafts.map(draft => draft.number);
  if (!stop.positions) return positions;
  if (entered.length && entered.length !== stop.positions.length) {
    const expected = `${entered.length} positions after \`stop\`, one for each axis`;
    throw new SheetError(stop.line, expected, String(stop.positions.length));
  }
  entered.forEach((number, place) => {
    const amount = stop.positions[place], whose = `stop ${index}, ${titleOf(reading.names, number)}`;
    const at = { line: stop.line, axis: number, entry: 'start position', whose, name: 'position', entered: amount.text,
      expected: STOP };
    positions[number] = reading.worked.whole(at, amount) ?? 0n;
  });
  return positions;
}

// The axis of a leg's job: from rest to rest.
export function legAxis(axis, from, to) {
  return { ...axis, 'start position': from, 'start velocity': 0n, target: 'still', 'target position': to };
}

// The job of a tour's leg, that seeks its least arrival.
export function legOf(tour, stops, index) {
  const from = number => index === 0 ? tour.axes[number]['start position'] : stops[index - 1].positions[number];
  const axes = tour.axes.map((axis, number) => axis && legAxis(axis, from(number), stops[index].positions[number]));
  return { asked: 0n, axes, windows: null };
}
