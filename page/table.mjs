// The table of a plan: the row at the tick under the finger, and all rows, of
// which those in sight are made.

import { FINE_STEPS } from './calls.mjs';
import { titleOf } from './assembling.mjs';
import { escaped } from './pictures.mjs';
import { measuresOf } from './measures.mjs';
import { called } from './refusal.mjs';

export const ROW_HEIGHT = 32;
const ROW_COLUMNS = ['position', 'velocity', 'acceleration'];
const SHORT = { position: 'pos', velocity: 'vel', acceleration: 'acc' };

// How the cells of an axis are shown: in fine steps, in units, or in the crew's measures.
export function showing(setup, number, how) {
  const { fine, names } = measuresOf(setup, number);
  if (how === 'cells') return { names: ['fine steps', 'fine steps/tick', 'fine steps/tick²'], show: String };
  if (how === 'units') return { names: ['units', 'units/tick', 'units/tick²'], show: cell => exactUnits(cell) };
  const decimals = fine.map(size => Math.min(12, Math.max(0, Math.ceil(2 - Math.log10(size)) - 2)));
  return { names, show: (cell, column) => (cell * fine[column]).toFixed(decimals[column]) };
}

// A cell in units, exactly: 256 parts have at most eight decimals.
function exactUnits(cell) {
  return String(cell / FINE_STEPS);
}

// What the table has, leg by leg: { rows, count, first }, the first tick in the tour's count.
export function tableOf(setup, plan, leg, how) {
  const axes = setup.kind === 'job' ? setup.job.axes : setup.tour.axes;
  const source = plan.kind === 'job' ? { rows: plan.rows, count: plan.arrival + 1 }
    : { rows: plan.legs[leg].rows, count: plan.legs[leg].ticks + 1 };
  const numbers = axes.map((axis, number) => axis ? number : -1).filter(number => number >= 0);
  return { ...source, tick: measuresOf(setup, numbers[0]).tick,
    columns: numbers.map(number => ({
      number, name: called(setup, number), title: titleOf(setup.names, number), ...showing(setup, number, how),
    })) };
}

// The heading of the table: two lines.
export function headingOf({ columns, tick }) {
  const first = columns.map(({ title }) => `<th scope="colgroup" colspan="3">${escaped(title)}</th>`).join('');
  const named = (name, at) => `<th scope="col"><abbr title="${ROW_COLUMNS[at]}">${SHORT[ROW_COLUMNS[at]]}</abbr> ` +
    `<small>${escaped(name)}</small></th>`;
  const second = columns.map(({ names }) => names.map(named).join('')).join(''), tall = 'scope="col" rowspan="2"';
  return `<tr><th ${tall}>tick</th>${tick ? `<th ${tall}>s</th>` : ''}${first}</tr><tr>${second}</tr>`;
}

// The seconds of a tick, in short.
export function secondsOfTick(tick, at) {
  return String(Number((tick * at).toPrecision(9)));
}

function rowOf(table, at, marked) {
  const cells = table.columns.map(({ number, show }) =>
    ROW_COLUMNS.map((name, column) => `<td>${show(table.rows[number][name][at], column)}</td>`).join('')).join('');
  const seconds = table.tick ? `<td>${secondsOfTick(table.tick, at)}</td>` : '';
  const mark = at === marked ? ' class="marked" aria-current="true"' : '';
  return `<tr aria-rowindex="${at + 3}"${mark}><th scope="row">${at}</th>${seconds}${cells}</tr>`;
}

// The rows in sight of a scrolled table, between two rows as high as those above and below.
export function rowsInSight(table, top, height, marked) {
  const from = Math.max(0, Math.min(table.count - 1, Math.floor(top / ROW_HEIGHT) - 5)),
    to = Math.min(table.count, from + Math.ceil(height / ROW_HEIGHT) + 10);
  const filler = count => count > 0 ? `<tr class="filler" aria-hidden="true" data-rows="${count}"><td></td></tr>` : '';
  let body = filler(from);
  for (let at = from; at < to; at++) body += rowOf(table, at, marked);
  return body + filler(table.count - to);
}

// The first and the last rows, for paper.
export function rowsOnPaper(table, most = 24) {
  const half = most / 2, width = 1 + (table.tick ? 1 : 0) + 3 * table.columns.length;
  let body = '';
  for (let at = 0; at < table.count; at++) {
    if (table.count > most && at === half) {
      body += `<tr><td colspan="${width}">${table.count - most} rows left out; the CSV file has all</td></tr>`;
      at = table.count - half;
    }
    body += rowOf(table, at, -1);
  }
  return body;
}

// The row at a tick, by axis, in words and numbers.
export function rowTold(table, at) {
  const seconds = table.tick ? ` · ${secondsOfTick(table.tick, at)} s` : '';
  const axes = table.columns.map(({ number, name, names, show }) =>
    `<tr><th scope="row">${escaped(name)} <small>${escaped(names[1].replace('/', ', '))}</small></th>` +
    ROW_COLUMNS.map((name, column) => `<td>${show(table.rows[number][name][at], column)}</td>`).join('') + '</tr>');
  const heading = ROW_COLUMNS.map(name => `<th scope="col">${name}</th>`).join('');
  return `<h3>Row at tick ${at}${seconds}</h3><div class="row-axes"><table>` +
    `<thead><tr><td></td>${heading}</tr></thead><tbody>${axes.join('')}</tbody></table></div>`;
}
