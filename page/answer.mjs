// What is read first: the arrival, or why there is none and what would do.

import { Fraction } from './fraction.mjs';
import { escaped } from './pictures.mjs';
import { rangeOf } from './plan.mjs';
import { measuresOf, shownFloat, swayTold } from './measures.mjs';
import { called, secondsTold, tickTold } from './refusal.mjs';
import { noteTold } from './worked.mjs';

const SWAY = 'A sway is in proportion to the real pole’s; it is not its tip in degrees.';
const NOT_LIMITED = 'Jerk and end stops are not limited.';

// Backquotes as code, in text for HTML.
export function withCode(text) {
  return escaped(text).replace(/&#96;|`([^`]*)`/g, (_, code) => `<code>${code}</code>`);
}

// The big line: seconds where they are known, and ticks.
function bigTime(setup, ticks) {
  const tick = setup.worked.tick?.exact;
  return tick ? `<strong>${Fraction.whole(ticks).times(tick).shown(9)} s</strong> <span>tick ${ticks}</span>`
    : `<strong>tick ${ticks}</strong>`;
}

const AT_MOST = 6;

// The answer of entries that are missing or cannot be read: names of the first, sentences for the
// others.
export function errorsTold(errors, nameOf) {
  const button = id =>
    `<button type="button" class="link" data-go="${escaped(id ?? '')}">${escaped(nameOf(id))}</button>`;
  const missing = errors.filter(({ error }) => error.found === 'the end of the line');
  const wrong = errors.filter(one => !missing.includes(one));
  const told = wrong.slice(0, AT_MOST).map(({ error, id }) =>
    `<li>${button(id)}: ${withCode(`expected ${error.expected}, found ${error.found}`)}</li>`);
  if (wrong.length > AT_MOST) told.push(`<li>and ${wrong.length - AT_MOST} more</li>`);
  const lacking = missing.length ? `<p>To be entered: ${missing.map(({ id }) => button(id)).join(' · ')}</p>` : '';
  const list = told.length ? `<ul>${told.join('')}</ul>` : '';
  return { verdict: '<strong>Not planned yet</strong>', rest: lacking + list };
}

// The answer of a refused job or tour. `text` is the header's of the number.
export function refusalTold(setup, told, text) {
  const buttons = [];
  if (told.number === 8 && told.next !== null &&
    told.least < Number(setup.job?.asked ?? 0)) buttons.push(arrivalButton(setup, told.next));
  if (told.number === 8 && told.least !== null) buttons.push(arrivalButton(setup, told.least));
  if ((told.number === 8 && told.least !== null || told.number === 3) && setup.kind === 'job') {
    buttons.push('<button type="button" data-arrival="earliest">Arrive as early as possible</button>');
  }
  const raises = told.raises.length && setup.kind === 'job'
    ? `<p>Or, to keep ${tickTold(setup, Number(setup.job.asked))}, raise as far as the motors allow:</p>` +
      listOf(told.raises) : '';
  const verdict = `<strong>${escaped(told.sentence.replace(/^(No plan[^:]*): .*/s, '$1'))}</strong>`;
  const cause = escaped(capital(told.sentence.replace(/^No plan[^:]*: /, '')));
  return { verdict, rest: `<p class="cause">${cause}</p><p>${escaped(told.remedy)}</p>` +
    `<div class="buttons">${buttons.join('')}</div>${raises}` +
    `<p class="number">Refusal ${told.number}: ${escaped(text)}.</p>` };
}

function arrivalButton(setup, tick) {
  return `<button type="button" data-arrival="${tick}">Arrive at ${tickTold(setup, tick)}</button>`;
}

function capital(text) {
  return text.charAt(0).toUpperCase() + text.slice(1);
}

// The answer of an accepted job.
export function jobTold(setup, plan, panels) {
  const why = setup.job.asked === 0n ? (setup.job.windows ? 'the earliest that fits a window' : 'the earliest')
    : 'as asked';
  const without = plan.unblended?.arrival !== undefined
    ? ` Without the blend it would be ${tickTold(setup, plan.unblended.arrival)}.` : '';
  const axes = panels.map(({ number, sways }) => axisTold(setup, number, rangeOf(plan.rows[number]), sways));
  const verdict = `<em>Arrives at</em> ${bigTime(setup, plan.arrival)} <span>${why}</span>`;
  const small = `<p class="small">${SWAY} ${NOT_LIMITED}${without}</p>`;
  return { verdict, rest: `<ul class="facts">${axes.join('')}</ul>${small}${notesTold(setup)}` };
}

// What an axis does: how far it goes, and what is left of its sway.
function axisTold(setup, number, { least, greatest }, sways) {
  const { fine, name } = measuresOf(setup, number), shown = cell => shownFloat(cell * fine[0], 9);
  const told = sways.map(({ name: sway, left, without }) =>
    `${sway} left ${swayTold(left)} ${escaped(name)}` +
    (without === null ? '' : ` (without the blend ${swayTold(without)})`));
  const range = `from ${shown(least)} to ${shown(greatest)} ${escaped(name)}`;
  return `<li><b>${escaped(called(setup, number))}</b> ${[range, ...told].join('; ')}</li>`;
}

// The answer of an accepted tour.
export function tourTold(setup, plan, panels) {
  const axes = panels.map(({ number, sways }) => {
    const ranges = plan.legs.map(leg => rangeOf(leg.rows[number]));
    const range = { least: Math.min(...ranges.map(range => range.least)),
      greatest: Math.max(...ranges.map(range => range.greatest)) };
    return axisTold(setup, number, range, sways);
  });
  const cell = ticks => `<td>${ticks}${secondsTold(setup, ticks)}</td>`;
  const rows = plan.legs.map(({ index, arrival, dwell }) =>
    `<tr><th scope="row">${index}</th>${cell(arrival)}${cell(dwell)}${cell(arrival + dwell)}</tr>`);
  const heading = ['stop', 'arrival', 'dwell', 'departure'].map(name => `<th scope="col">${name}</th>`).join('');
  const stops = `${plan.legs.length} ${plan.legs.length === 1 ? 'stop' : 'stops'}`;
  const verdict = `<em>The tour takes</em> ${bigTime(setup, plan.total)} <span>${stops}</span>`;
  return { verdict, rest: `<div class="scroll"><table class="stops"><thead><tr>${heading}</tr></thead>` +
    `<tbody>${rows.join('')}</tbody></table></div><ul class="facts">${axes.join('')}</ul>` +
    `<p class="small">${SWAY} ${NOT_LIMITED}</p>${notesTold(setup)}` };
}

// What was rounded on entry.
function notesTold(setup) {
  if (!setup.notes.length) return '';
  const count = setup.notes.length === 1 ? '1 entry was rounded' : `${setup.notes.length} entries were rounded`;
  const sentences = setup.notes.map(note => `${capital(noteTold(note))}.`);
  return `<details class="notes"><summary>${count}</summary>${listOf(sentences)}</details>`;
}

function listOf(texts) {
  return `<ul>${texts.map(text => `<li>${escaped(text)}</li>`).join('')}</ul>`;
}
