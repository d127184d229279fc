// What leaves the page: a table as comma-separated values, job words, and a sheet in an address.

import { maskOf } from './calls.mjs';
import { titleOf } from './assembling.mjs';
import { weightOf } from './bound.mjs';

const COLUMNS = ['position', 'velocity', 'acceleration'];

function csvField(text) {
  return /[,"\n\r]/.test(text) ? `"${text.replaceAll('"', '""')}"` : text;
}

function axisNumbers(axes) {
  return axes.map((axis, number) => axis ? number : -1).filter(number => number >= 0);
}

// The table of a plan, or the tables of a tour's legs: whole fine steps of 1/256 unit.
export function csvOf(setup, plan, version, name) {
  const isJob = plan.kind === 'job', numbers = axisNumbers(isJob ? plan.job.axes : setup.tour.axes);
  const made = `# polgamir ${version} from ${name.replace(/[\u0000-\u001f\u007f-\u009f]/g, '')}: `;
  const told = isJob ? `arrival ${plan.arrival}` : `${plan.legs.length} stops, total ${plan.total}`;
  const heading = isJob ? ['tick'] : ['stop', 'row', 'tick'];
  for (const number of numbers) heading.push(...COLUMNS.map(column =>
    csvField(`${titleOf(setup.names, number)} ${column}`)));
  const lines = [`${made}${told}, in fine steps of 1/256 unit`, heading.join(',')];
  const push = (places, rows, tick) => lines.push([...places,
    ...numbers.flatMap(number => COLUMNS.map(column => rows[number][column][tick]))].join(','));
  if (isJob) for (let tick = 0; tick <= plan.arrival; tick++) push([tick], plan.rows, tick);
  else for (const leg of plan.legs) for (let row = 0; row <= leg.ticks; row++) push([leg.index, row,
    leg.departure + row], leg.rows, row);
  return lines.join('\n') + '\n';
}

const PAYLOAD = 2n ** 28n - 1n, ONE_WORD = 2n ** 27n;

// The words of a job, or { error } where words cannot say it. A measured damping has the weight
// that the planner works out from it; the page asks the library for the plan of the words and hands
// them out where it is that of the job.
export function wordsOfJob(job) {
  if (job.windows) return { error: 'The job has windows, and job words have none.' };
  const words = [], error = axisNumbers(job.axes).find(number => weightOf(job.axes[number].damping) === null);
  if (error !== undefined) return { error: `Axis ${error}: the damping as measured has no weight.` };
  const word = (kind, value) => words.push(Number(BigInt(kind) << 28n | BigInt.asUintN(64, value) & PAYLOAD));
  const position = (kind, value) => {
    if (value < -ONE_WORD || value >= ONE_WORD) word(14, value >> 28n);
    word(kind, value);
  };
  word(1, BigInt(maskOf(job.axes)));
  word(2, job.asked);
  for (const axis of job.axes.filter(axis => axis)) {
    position(3, axis['start position']);
    word(4, axis['start velocity']);
    word(5, axis['speed limit']);
    word(6, axis['acceleration limit']);
    word(7, axis['half period']);
    word(8, BigInt(weightOf(axis.damping)));
    if (axis['second half period'] !== undefined) word(13, axis['second half period']);
    position(9, axis['target position']);
    word(10, axis['target velocity'] ?? 0n);
    if (axis.target === 'moving') {
      word(11, axis['target acceleration']);
      word(12, axis['target tick']);
    }
  }
  word(15, 0n);
  return { words };
}

// Words as hexadecimal text: mask and arrival on the first line, then a line
// for each axis, last the end word.
export function hexadecimalOf(words) {
  const kind = at => words[at] >>> 28;
  return words.map((word, at) => {
    const begins = kind(at) === 3 && kind(at - 1) !== 14 || kind(at) === 14 && kind(at + 1) === 3 || kind(at) === 15;
    return (at === 0 ? '' : begins ? '\n' : ' ') + (word >>> 0).toString(16).toUpperCase().padStart(8, '0');
  }).join('') + '\n';
}

const ADDRESS = '#sheet=';

// A sheet as the last part of an address.
export function addressOf(sheet) {
  const lines = sheet.split('\n').map(line => line.trim().replace(/ +/g, ' ')).filter(line => line);
  const bytes = new TextEncoder().encode(lines.join('\n') + '\n'),
    signs = Array.from(bytes, byte => String.fromCharCode(byte)).join('');
  return ADDRESS + btoa(signs).replaceAll('+', '-').replaceAll('/', '_').replace(/=+$/, '');
}

// The sheet in the last part of an address: null where there is none, { error } where it is no
// text.
export function sheetInAddress(hash) {
  if (!hash || hash === '#') return null;
  const error = `The address has \`${hash.slice(0, 40)}\` at its end, which is no job.`;
  if (!hash.startsWith(ADDRESS)) return { error };
  try {
    const signs = atob(hash.slice(ADDRESS.length).replaceAll('-', '+').replaceAll('_', '/'));
    const bytes = Uint8Array.from(signs, sign => sign.charCodeAt(0));
    return { text: new TextDecoder('utf-8', { fatal: true }).decode(bytes) };
  } catch {
    return { error: 'The address has a job that cannot be read: a part of it is missing or changed.' };
  }
}
