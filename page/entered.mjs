// What is entered in the form, and the sheet that says it: every entry of a sheet has its field,
// and every line of the sheet that is written belongs to one.

import { amountsOf, onlyAmount, partsOfSecond, readUnit, splitNumber } from './amount.mjs';
import { NUMBER_LINES, after, measureOf, ruleOf, sameWord } from './entries.mjs';
import { targetHas } from './assembling.mjs';
import { linesOf, wordsOf } from './reading.mjs';
import { SheetError } from './worked.mjs';

const TARGET_ENTRIES = ['target position', 'target velocity', 'target acceleration', 'target tick'];

// A number with its measure: '' for ticks and units, `unit` for the axis's unit, else as it is
// written.
export function field(text = '', measure = '') {
  return { text, measure };
}

// An axis with nothing entered, in the crew's measures.
export function emptyAxis(number, name = '') {
  const time = () => ({ how: 'half period', count: '', ...field('', 's') });
  const axis = {
    number, name, size: '', unit: '', pole: time(), damping: { how: 'shrinks', one: '', first: '', second: '' },
    hasSecond: false, second: time(), target: 'still', 'target tick': field('', 's'), marks: {},
  };
  for (const name of ['speed limit', 'acceleration limit', 'start position', 'target position',
    'target acceleration']) {
    axis[name] = field('', 'unit');
  }
  return { ...axis, 'start velocity': field('0', ''), 'target velocity': field('', 'unit') };
}

// A sheet with nothing entered.
export function emptyEntered() {
  return {
    kind: 'job', note: '', tick: field('20', 'ms'), size: '0.01', unit: 'degree',
      arrival: { how: 'earliest', ...field('', 's') },
    hasWindows: false, dwell: field('', 's'), windows: [], axes: [emptyAxis(0, 'pan')], stops: [], marks: {},
  };
}

// The number of an amount, as a field: of a time its measure in short, else the axis's unit.
function fieldOf(amount, quantity) {
  if (!amount.measure) return field(amount.digits, '');
  if (quantity !== 'time') return field(amount.digits, 'unit');
  return field(amount.digits, partsOfSecond(amount.measure) === 1000 ? 'ms' : 's');
}

// What a sheet that can be read has entered.
export function enteredOf(text) {
  const entered = emptyEntered(), reading = { entered, axis: null, above: [] };
  Object.assign(entered, { kind: 'job', tick: field(), size: '', unit: '', axes: [] });
  for (const line of linesOf(text)) {
    const words = wordsOf(line), at = line.indexOf('#');
    const comment = at < 0 ? '' : line.slice(at + 1).trim();
    if (words.length) takeLine(reading, words, comment);
    else if (at >= 0) reading.above.push(comment);
    else if (reading.above.length && !reading.hasBegun) reading.above.push('');
  }
  entered.end = reading.above.filter(comment => comment);
  entered.axes.sort((one, other) => one.number - other.number);
  return entered;
}

// The comment beside a line and those above it; the ones at the head of a sheet are its note.
function mark(reading, marks, name, comment) {
  const { above } = reading;
  reading.above = [];
  if (!reading.hasBegun) {
    reading.hasBegun = true;
    reading.entered.note = above.join('\n').trim();
    return mark(reading, marks, name, comment);
  }
  if (above.length || comment) marks[name] = { above, comment };
}

function takeLine(reading, words, comment) {
  const { entered } = reading, value = name => after(words, name);
  const axis = value('axis');
  if (axis) {
    reading.axis = emptyAxis(Number(axis[0]), axis.slice(1).join(' '));
    entered.axes.push(reading.axis);
    return mark(reading, reading.axis.marks, 'axis', comment);
  }
  const stop = value('stop'), window = value('window');
  if (stop) return takeStop(reading, stop, comment);
  if (window) return takeWindow(reading, window, comment);
  const whole = ['tick', 'arrival', 'dwell'].find(value), owner = whole ? entered : reading.axis ?? entered;
  const name = whole ? takeWhole(entered, whole, value(whole)) : takeEntry(owner, words);
  mark(reading, owner.marks, name, comment);
}

function takeWhole(entered, name, words) {
  if (name === 'tick') {
    const measure = splitTick(words);
    entered.tick = field(words[0].slice(0, words[0].length - measure.attached.length), measure.measure);
  } else if (name === 'arrival') {
    if (!sameWord(words[0], 'earliest')) entered.arrival = { how: 'at', ...fieldOf(onlyAmount(words), 'time') };
  } else {
    entered.hasWindows = true;
    entered.dwell = fieldOf(onlyAmount(words), 'time');
  }
  return name;
}

// The measure of a tick: what stands after its size.
function splitTick(words) {
  const number = splitNumber(words[0]), divisor = number.rest.startsWith('/') ? splitNumber(number.rest.slice(1))
    : null;
  const attached = divisor ? divisor.rest : number.rest, measure = (attached + words.slice(1).join(' ')).toLowerCase();
  return { attached, measure: measure === '' ? 's' : partsOfSecond(measure) === 1000 ? 'ms' : 's' };
}

function takeWindow(reading, words, comment) {
  const [opening, closing] = amountsOf(words).map(amount => fieldOf(amount, 'time')),
    window = { opening, closing, marks: {} };
  reading.entered.hasWindows = true;
  reading.entered.windows.push(window);
  mark(reading, window.marks, 'window', comment);
}

function takeStop(reading, words, comment) {
  const split = words.findIndex(word => sameWord(word, 'dwell'));
  const positions = amountsOf(words.slice(0, split)).map(amount => fieldOf(amount, 'position'));
  const stop = { positions, dwell: fieldOf(onlyAmount(words.slice(split + 1)), 'time'), note: comment, marks: {} };
  reading.entered.kind = 'tour';
  reading.entered.stops.push(stop);
  mark(reading, stop.marks, 'stop', '');
}

// Takes an entry of an axis, or the unit of the whole sheet.
function takeEntry(owner, words) {
  const value = name => after(words, name), unit = value('unit'), target = value('target');
  if (unit) {
    const { text: size, name } = readUnit(unit);
    Object.assign(owner, { size, unit: name });
    return 'unit';
  }
  const how = ['weight', 'shrinks', 'peaks'].find(value);
  if (how) {
    const peaks = how === 'peaks' ? amountsOf(value(how)).map(amount => amount.digits) : ['', ''];
    owner.damping = { how, one: how === 'peaks' ? '' : value(how)[0], first: peaks[0], second: peaks[1] };
    return 'damping';
  }
  const line = NUMBER_LINES.find(([name]) => value(name));
  if (line) return takeNumber(owner, line, value(line[0]));
  owner.target = target[0].toLowerCase();
  return 'target';
}

function takeNumber(axis, [name, entry], words) {
  if (!entry.endsWith('half period')) {
    axis[entry] = fieldOf(onlyAmount(words), ruleOf(entry).quantity);
    return entry;
  }
  const how = name.replace(/^second (?!half)/, '').replace(/^second half/, 'half'), isSwings = how === 'swings';
  const amount = onlyAmount(isSwings ? words.slice(2) : words);
  const pole = { how, count: isSwings ? words[0] : '', ...fieldOf(amount, 'time') };
  if (entry === 'half period') axis.pole = pole;
  else Object.assign(axis, { hasSecond: true, second: pole });
  return entry;
}

// What a field says on a sheet: its text, and its measure where the text has none of its own.
function said({ text, measure }, quantity, unit) {
  const plain = text.trim(), number = splitNumber(plain);
  if (!measure || !number || number.rest !== '') return plain;
  return `${plain} ${measure === 'unit' ? measureOf(quantity, unit || 'unit') : measure}`;
}

// The name and the value of a half period as it was noted.
function poleSaid(pole, prefix) {
  const name = prefix && pole.how === 'half period' ? 'second half period' : prefix + pole.how, text = pole.text.trim();
  if (pole.how === 'swings') return [name, text || pole.count ? `${pole.count.trim()} in ${said(pole, 'time')}` : ''];
  if (pole.how === 'frequency') return [name, said({ text, measure: 'Hz' }, 'time')];
  return [name, said(pole, 'time')];
}

// The lines of the sheet, each with the id of the field that it belongs to.
export function linesEntered(entered) {
  const lines = [], push = (text, id, marks, name) => {
    const { above = [], comment = '' } = marks?.[name] ?? {};
    for (const remark of above) lines.push({ text: `# ${remark}`.trim(), id });
    lines.push({ text: comment ? `${text.padEnd(38)} # ${comment}` : text.trimEnd(), id });
  };
  for (const remark of entered.note.trim() ? entered.note.trim().split('\n')
    : []) lines.push({ text: `# ${remark}`.trim(), id: 'note' });
  if (lines.length) lines.push({ text: '', id: 'note' });
  const { marks } = entered;
  if (entered.tick.text.trim()) push(`tick ${said(entered.tick, 'time')}`, 'tick', marks, 'tick');
  if (entered.unit.trim() || entered.size.trim()) push(`unit ${entered.size} ${entered.unit}`.replace(/ +/g, ' '),
    'unit', marks, 'unit');
  if (entered.kind === 'job') pushArrival(entered, push);
  entered.axes.forEach((axis, index) => {
    if (lines.length && lines[lines.length - 1].text) lines.push({ text: '', id: 'note' });
    pushAxis(entered, axis, `axis.${index}`, push);
  });
  if (entered.kind === 'tour') pushStops(entered, push, lines);
  for (const remark of entered.end ?? []) lines.push({ text: `# ${remark}`, id: 'note' });
  return lines;
}

function pushArrival(entered, push) {
  const { arrival, marks } = entered;
  push(`arrival ${arrival.how === 'earliest' ? 'earliest' : said(arrival, 'time')}`, 'arrival', marks, 'arrival');
  if (!entered.hasWindows) return;
  push(`dwell ${said(entered.dwell, 'time')}`, 'dwell', marks, 'dwell');
  entered.windows.forEach((window, index) => {
    push(`window ${said(window.opening, 'time')} ${said(window.closing, 'time')}`, `window.${index}`, window.marks,
      'window');
  });
}

function pushAxis(entered, axis, id, push) {
  const unit = axis.unit.trim() || entered.unit.trim();
  const line = (name, value, key) => push(`  ${name.padEnd(20)} ${value}`, `${id}.${key}`, axis.marks, key);
  const number = name => line(name, said(axis[name], ruleOf(name).quantity, unit), name);
  push(`axis ${axis.number} ${axis.name.trim()}`, id, axis.marks, 'axis');
  if (axis.unit.trim() || axis.size.trim()) line('unit', `${axis.size} ${axis.unit}`.trim(), 'unit');
  line(...poleSaid(axis.pole, ''), 'half period');
  const { how, one, first, second } = axis.damping;
  line(how, how === 'peaks' ? `${first.trim()} ${second.trim()}`.trim() : one.trim(), 'damping');
  if (axis.hasSecond) line(...poleSaid(axis.second, 'second '), 'second half period');
  for (const name of ['speed limit', 'acceleration limit', 'start position']) number(name);
  if (entered.kind === 'tour') return;
  number('start velocity');
  line('target', axis.target, 'target');
  for (const name of TARGET_ENTRIES.filter(name => targetHas(axis.target, name))) number(name);
}

function pushStops(entered, push, lines) {
  lines.push({ text: '', id: 'note' });
  entered.stops.forEach((stop, index) => {
    const positions = entered.axes.map((axis, place) =>
      said(stop.positions[place] ?? field(), 'position', axis.unit.trim() || entered.unit.trim()));
    const text = `stop  ${positions.join('  ')}  dwell ${said(stop.dwell, 'time')}`;
    push(text, `stop.${index}`, { stop: { above: stop.marks.stop?.above, comment: stop.note.trim() } }, 'stop');
  });
}

// What a sheet would take otherwise than the form means it: words in the place of a unit's size,
// which would be a part of its name.
export function formErrors(entered, lines) {
  const units = [['unit', entered], ...entered.axes.map((axis, index) => [`axis.${index}.unit`, axis])];
  const isSize = size => readUnit([size, 'unit'])?.name === 'unit';
  return units.filter(([, { size }]) => size.trim() && !isSize(size.trim())).map(([id, { size }]) => {
    const line = lines.findIndex(line => line.id === id) + 1;
    return new SheetError(line, 'a number above 0, or none for 1, before the name of a unit', `\`${size.trim()}\``);
  });
}

// The text of the sheet.
export function sheetOf(entered) {
  return linesEntered(entered).map(({ text }) => text).join('\n') + '\n';
}
