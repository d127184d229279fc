// The page's modules against the command and against what the reference has worked out:
// every sheet of sheets/ and tests/sheets, its answer, its table, what was rounded, its
// errors, its CSV and its words.
//
//     node tests/page/modules.mjs ROOT COMMAND

import assert from 'node:assert/strict';
import { spawnSync } from 'node:child_process';
import { readFileSync, readdirSync } from 'node:fs';
import { join } from 'node:path';

const [root, command] = process.argv.slice(2);
const load = name => import(join(root, 'page', name));
const { openLibrary } = await load('calls.mjs');
const { readSheet } = await load('reading.mjs');
const { noteTold } = await load('worked.mjs');
const { planOf } = await load('plan.mjs');
const { legOf } = await load('assembling.mjs');
const { csvOf, wordsOfJob, hexadecimalOf, addressOf, sheetInAddress } = await load('carry.mjs');
const { enteredOf, sheetOf } = await load('entered.mjs');
const { readFloat } = await load('amount.mjs');
const { swayOf } = await load('sway.mjs');
const { panelsOfJob, panelsOfTour } = await load('pictures.mjs');
const { weightOf } = await load('bound.mjs');

const library = await openLibrary(readFileSync(join(root, 'target/lib/wasm32/polgamir.wasm')));
const text = path => readFileSync(join(root, path), 'utf8');
const files = (folder, ending) => readdirSync(join(root, folder)).filter(name =>
  name.endsWith(ending)).sort().map(name => `${folder}/${name}`);
const run = (words, input) => spawnSync(command, words, { input, cwd: root, encoding: 'utf8', maxBuffer: 1 << 28 });
const withoutRemarks = csv => csv.split('\n').filter(line => !line.startsWith('#')).join('\n');
let count = 0;

// What the command says on its standard error, without its own name.
function said(done) {
  return done.stderr.split('\n').filter(line => line).map(line => line.replace(/^polgamir: /, ''));
}

function notesOf(setup) {
  return setup.notes.map(note => `line ${note.line}: ${noteTold(note)}`);
}

// The columns of a plan, as `polgamir plan --json` has them.
function columnsOf(rows) {
  return rows.flatMap((axis, number) => axis ? [{
    axis: number, position: [...axis.position], velocity: [...axis.velocity], acceleration: [...axis.acceleration],
  }] : []);
}

function sameTable(found, done, path) {
  const { arrival, axes } = JSON.parse(done.stdout);
  assert.equal(found.arrival, arrival, path);
  const told = axes.map(({ axis, position, velocity, acceleration }) => ({ axis, position, velocity, acceleration }));
  assert.deepEqual(columnsOf(found.rows), told, path);
}

function compareJob(path, setup) {
  const done = run(['plan', '--json', path]), plan = planOf(library, setup);
  assert.deepEqual(said(done).filter(line => line.startsWith('line ')), notesOf(setup), `${path}: what was rounded`);
  const told = JSON.parse(done.stdout);
  if (told.refused) {
    const { number, place, mask, arrival } = plan.answer;
    assert.deepEqual([number, place, mask, arrival], [told.refused, told.place, told.axes, told.arrival], path);
    if (told.text.startsWith('No plan')) assert.ok(told.text.startsWith(plan.told.sentence),
      `${path}: ${told.text}\n${plan.told.sentence}`);
    return;
  }
  assert.ok(plan.ok, `${path}: refused with ${plan.answer.number}`);
  sameTable(plan, done, path);
  assert.equal(withoutRemarks(csvOf(setup, plan, 'x', 'y')), withoutRemarks(run(['plan', '--csv', path]).stdout),
    `${path}: CSV`);
  const words = run(['words', path]), own = wordsOfJob(setup.job);
  if (words.status === 0) assert.equal(hexadecimalOf(own.words), words.stdout, `${path}: words`);
  else assert.ok(own.error, path);
}

// A job as a sheet in ticks and units.
function sheetOfJob(job) {
  const lines = [`arrival ${job.asked || 'earliest'}`];
  job.axes.forEach((axis, number) => {
    if (!axis) return;
    lines.push(`axis ${number}`, `weight ${weightOf(axis.damping)}`, `target ${axis.target}`);
    for (const [name, value] of Object.entries(axis)) if (typeof value === 'bigint') lines.push(`${name} ${value}`);
  });
  return lines.join('\n') + '\n';
}

function compareTour(path, setup) {
  const done = run(['tour', path]), plan = planOf(library, setup);
  assert.deepEqual(said(done).filter(line => line.startsWith('line ')), notesOf(setup), `${path}: what was rounded`);
  assert.equal(Number(/^total (\d+)/m.exec(done.stdout)[1]), plan.total, path);
  const rows = [...done.stdout.matchAll(/^ *(\d+) +(\d+)/gm)].map(([, stop, arrival]) =>
    [Number(stop), Number(arrival)]).filter(([stop]) => stop < plan.legs.length);
  assert.deepEqual(rows.slice(0, plan.legs.length), plan.legs.map(leg => [leg.index, leg.arrival]), path);
  for (const leg of plan.legs) {
    const found = { arrival: leg.ticks, rows: leg.rows };
    sameTable(found, run(['plan', '--json', '-'], sheetOfJob(legOf(setup.tour, setup.stops, leg.index))),
      `${path}: leg ${leg.index}`);
  }
}

// Every good sheet plans as the command plans it.
for (const path of [...files('sheets', '.sheet'), ...files('tests/sheets/good', '.sheet')]) {
  const { setup, errors } = readSheet(text(path));
  assert.ok(setup, `${path}: ${errors?.[0].message}`);
  if (setup.kind === 'job') compareJob(path, setup);
  else compareTour(path, setup);
  count += 1;
}

// What the reference has worked out: the planned numbers and the sentences.
function planned(setup) {
  const { axes } = setup.job ?? setup.tour, lines = [];
  if (setup.job) lines.push(`arrival ${setup.job.asked || 'earliest'}`);
  if (setup.job?.windows) lines.push(`dwell ${setup.job.windows.dwell}`,
    ...setup.job.windows.list.map(({ opening, closing }) => `window ${opening} ${closing}`));
  axes.forEach((axis, number) => {
    if (!axis) return;
    const { damping, ...entries } = axis, words = damping.text.toLowerCase();
    entries[damping.kind] = damping.kind === 'peaks' ? words.replace(/[^0-9. ]+/g, '').replace(/ +/g, ' ').trim()
      : words;
    lines.push(`axis ${number}`, ...Object.keys(entries).sort().map(name => `${name} ${entries[name]}`));
  });
  for (const { positions, dwell } of setup.stops ?? []) {
    const places = axes.flatMap((axis, number) => axis ? [positions[number]] : []);
    lines.push(`stop ${places.join(' ')} dwell ${dwell}`);
  }
  return [...lines, ...notesOf(setup).map(note => `note ${note}`)].join('\n') + '\n';
}

for (const [folder, sheets] of [['good', 'tests/sheets/good'], ['examples', 'sheets']]) {
  for (const path of files(`tests/sheets/${folder}`, '.txt')) {
    const sheet = `${sheets}/${path.split('/').pop().replace('.txt', '.sheet')}`;
    assert.equal(planned(readSheet(text(sheet)).setup), text(path), sheet);
    count += 1;
  }
}

// Every wrong sheet is told as it is expected, and as the command tells it.
for (const path of files('tests/sheets/bad', '.sheet')) {
  const told = readSheet(text(path)).errors.map(error => error.message);
  assert.equal(told.map(line => `error ${line}\n`).join(''), text(path.replace('.sheet', '.txt')), path);
  assert.deepEqual(said(run(['plan', path])).map(line => line.replace(`${path}: `, '')), told, path);
  count += 1;
}

// Single entries, drawn by the reference.
const OTHERS = ['half period', 'speed limit', 'acceleration limit', 'start position', 'start velocity',
  'target position', 'target velocity',
  'target acceleration', 'target tick'];
for (const line of text('tests/sheets/drawn.txt').split('\n').filter(line => line && !line.startsWith('#'))) {
  const [tick, unit, name, value, number, sentence] = line.split(' | ');
  const entry = name.replace(/(second )?(?:half period|period|frequency|swings)/, '$1half period');
  const others = OTHERS.filter(other => other !== entry).map(other => `${other} 1\n`).join('');
  const { setup } = readSheet(`tick ${tick}\nunit ${unit}\naxis 0\n${name} ${value}\n`
    + `arrival earliest\ntarget moving\nweight 128\n${others}`);
  assert.equal(String(setup.job.axes[0][entry]), number, line);
  assert.deepEqual(notesOf(setup).map(note => note.split('; ')[0]),
    sentence === '-' ? [] : [`line 4: axis 0: ${sentence}`], line);
  count += 1;
}

// A sheet goes through the form and through an address, and comes out as the same job.
const plain = setup => JSON.stringify([setup.job ?? setup.tour, setup.stops, setup.names],
  (name, value) => typeof value === 'bigint' ? `${value}n` : ['line', 'text'].includes(name) ? undefined : value);
for (const path of [...files('sheets', '.sheet'), ...files('tests/sheets/good', '.sheet')]) {
  const first = readSheet(text(path)).setup, written = sheetOf(enteredOf(text(path)));
  assert.equal(plain(readSheet(written).setup), plain(first), path);
  assert.equal(sheetOf(enteredOf(written)), written, path);
  assert.equal(plain(readSheet(sheetInAddress(addressOf(written)).text).setup), plain(first), path);
  count += 1;
}
assert.equal(sheetInAddress(''), null);
for (const hash of ['#x', '#sheet=%%', '#sheet=_w']) assert.ok(sheetInAddress(hash).error, hash);

// Damping is rounded once: two decimals around the middle of two floats, which are one double.
assert.equal(readFloat('1.00000017881393432617187499'), 1 + 2 ** -23);
assert.equal(readFloat('1.00000017881393432617187501'), 1 + 2 ** -22);
assert.equal(readFloat('-0.8'), -Math.fround(0.8));
for (const word of ['inf', 'nan', '1e99', '', '.', '1,5', '0x10']) assert.equal(readFloat(word), null, word);

// Refusals that no sheet comes to: a job with no axis, and a table with no room.
assert.equal(library.planJob({ asked: 0n, axes: new Array(6).fill(null), windows: null }).number, 1);
assert.equal(library.arrivalOf(readSheet(text('sheets/case-c.sheet')).setup.job).number, 10);

// A push one way for T ticks and the other way for T leaves 4a/w² sin²(wT/2) on an undamped
// pole; a blended one leaves nothing.
for (const [halfPeriod, ticks] of [[10, 7], [6.25, 20], [8, 16], [33, 5]]) {
  const rows = Float64Array.from({ length: 2 * ticks + 1 }, (_, row) => row < ticks ? 3 : row < 2 * ticks ? -3 : 0),
    w = Math.PI / halfPeriod;
  const { left } = swayOf({ halfPeriod, ratio: 1 }, rows, 2 * ticks + 40),
    expected = 12 / (w * w) * Math.sin(w * ticks / 2) ** 2;
  assert.ok(Math.abs(left - expected) < 1e-9 * (1 + halfPeriod * halfPeriod), `${halfPeriod} ${left} ${expected}`);
}
const blended = new Float64Array(16);
for (const [tick, push] of [[0, 1], [1, 0.5], [3, -1.5]]) {
  blended[tick] += push * 156;
  blended[tick + 5] += push * 100;
}
assert.ok(swayOf({ halfPeriod: 5, ratio: 100 / 156 }, blended, 60).left < 1e-9);

// The sways beside the command's: what is left of each, and what would be without the blend, in the
// digits that its pictures have.
const LEFT = /left (?:&lt;)?([0-9.,]+)(?:; without (?:the )?blend (?:&lt;)?([0-9.,]+))?</g;
for (const path of [...files('sheets', '.sheet'), ...files('tests/sheets/good', '.sheet')]) {
  const { setup } = readSheet(text(path)), plan = planOf(library, setup);
  if (!plan.ok) continue;
  const panels = plan.kind === 'job' ? panelsOfJob(setup, plan) : panelsOfTour(setup, plan);
  const own = panels.flatMap(({ sways }) => sways.map(({ left, without }) => [left, without]));
  const told = [...run(['plot', path, '-o', '-']).stdout.matchAll(LEFT)];
  assert.equal(told.length, own.length, `${path}: sways`);
  told.forEach(([, ...numbers], place) => numbers.forEach((number, at) => {
    if (number === undefined) return assert.equal(own[place][at], null, path);
    const expected = Number(number.replaceAll(',', ''));
    assert.ok(Math.abs(own[place][at] - expected) <= 0.006 * expected + 0.001,
              `${path}: ${own[place][at]} for ${expected}`);
  }));
}

console.log(`${count} sheets and entries are as the command and the reference have them`);
