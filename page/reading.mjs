// Reading a set-up sheet: first what a tick and a unit stand for and where each
// axis begins, then everything else.

import { AXES } from './calls.mjs';
import { amountsOf, onlyAmount, readTick, readUnit, secondsOf } from './amount.mjs';
import {
  ARRIVAL, DAMPING, DAMPING_LINES, DWELL, ENTRIES, NUMBER_LINES, STOP, TARGETS, WINDOW,
  after, expectedAfter, isKnown, nearestName, quoted, readNumberLine, sameWord,
} from './entries.mjs';
import { SheetError, Worked } from './worked.mjs';
import { jobOf, titleOf, tourOf } from './assembling.mjs';

// What stands between the words of a line.
const SEPARATORS = /[\t-\r \u0085\u00a0\u1680\u2000-\u200a\u2028\u2029\u202f\u205f\u3000:=]+/;

// The lines of a text, as they are counted.
export function linesOf(text) {
  const lines = text.replace(/^\ufeff/, '').split('\n').map(line => line.replace(/\r$/, ''));
  return lines[lines.length - 1] === '' ? lines.slice(0, -1) : lines;
}

// The words of a line without its comment.
export function wordsOf(line) {
  return line.split('#')[0].split(SEPARATORS).filter(word => word);
}

// What a text asks for: { setup } or { errors }, all of them in the order of their lines. A setup
// is { kind, job } or { kind, tour, stops }, with names, worked (the scales and what was rounded),
// notes in the order of lines, and lastLine.
export function readSheet(text) {
  return new Reading(linesOf(text)).read();
}

class Reading {
  constructor(lines) {
    Object.assign(this, {
      errors: [], worked: new Worked(), names: [], drafts: [], current: -1, arrival: null, arrivalLine: 0,
      windows: [], windowLines: [], dwell: null, dwellLine: 0, stops: [], lastLine: Math.max(lines.length, 1),
    });
    this.lines = lines.map((line, index) => this.lineOf(index + 1, wordsOf(line))).filter(line => line);
  }

  // A line that says something; where its name is misspelt, with the name that was meant.
  lineOf(number, words) {
    if (!words.length) return null;
    const meant = isKnown(words) ? null : nearestName(words);
    if (!meant) return { number, words };
    const found = `${quoted(words)}; did you mean \`${meant.name}\`?`;
    this.errors.push(new SheetError(number, 'the name of an entry', found));
    return { number, words: [...meant.name.split(' '), ...words.slice(meant.count)], isMisspelt: true };
  }

  read() {
    for (const line of this.lines) this.keep(line, () => this.begin(line.number, line.words));
    for (const line of this.lines) this.keep(line, () => this.take(line.number, line.words));
    if (!this.drafts.length) this.endsWithout('at least one of `axis 0` to `axis 5`');
    this.drafts = this.drafts.filter(draft => draft.number < AXES).sort((one, other) => one.number - other.number);
    const setup = this.stops.length ? tourOf(this) : jobOf(this);
    const byLine = (one, other) => one.line - other.line;
    if (this.errors.length) return { errors: this.errors.sort(byLine) };
    const { names, worked, lastLine } = this;
    return { setup: { ...setup, names, worked, lastLine, notes: worked.rounded.sort(byLine) } };
  }

  // Does what may end in an error, and keeps that, but of a misspelt line nothing further.
  keep(line, act) {
    try {
      act();
    } catch (error) {
      if (!(error instanceof SheetError)) throw error;
      if (!line.isMisspelt) this.errors.push(error);
    }
  }

  fault(line, expected, found) {
    this.errors.push(new SheetError(line, expected, found));
  }

  endsWithout(lacking) {
    this.fault(this.lastLine, lacking, 'the end of the sheet');
  }

  // Takes a line that says what a tick or a unit stands for, or that begins an axis.
  begin(line, words) {
    const axis = after(words, 'axis'), tick = after(words, 'tick'), unit = after(words, 'unit');
    if (axis) return this.beginAxis(line, axis);
    if (tick) {
      this.once(this.worked.tick, line, '`tick`');
      this.worked.tick = { line, ...readTick(tick) };
      if (!this.worked.tick.exact) {
        throw new SheetError(line, 'a number of seconds above 0, as in `0.02` or `20 ms`, after `tick`', quoted(tick));
      }
    }
    if (unit) this.takeUnit(line, unit);
  }

  once(first, line, name) {
    if (first) throw new SheetError(line, `one ${name}`, `another beside that of line ${first.line}`);
  }

  takeUnit(line, words) {
    const last = this.drafts[this.drafts.length - 1], unit = { line, ...readUnit(words) }, { worked } = this;
    if (!last) {
      this.once(worked.common, line, '`unit` before the axes');
      worked.common = unit;
    } else if (last.number < AXES) {
      this.once(worked.own[last.number], line, '`unit` for an axis');
      worked.own[last.number] = unit;
    }
    if (unit.exact) return;
    const name = words.slice(0, -1), number = words[words.length - 1];
    const isSwapped = name.length > 0 && readUnit([number, ...name]);
    const found = quoted(words) + (isSwapped ? `: write \`unit ${number} ${name.join(' ')}\`` : '');
    throw new SheetError(line, 'a number above 0, or none for 1, and then a name after `unit`', found);
  }

  // Begins an axis. One whose line is wrong is read all the same, and then left.
  beginAxis(line, rest) {
    const number = /^\+?0*[0-5]$/.test(rest[0] ?? '') ? Number(rest[0]) : null;
    const first = this.drafts.find(draft => draft.number === number);
    if (number === null || first) {
      this.drafts.push({ number: AXES, title: '', line, entries: {}, lines: {} });
      if (first) throw new SheetError(line, `axis ${number} once`, `it again after line ${first.line}`);
      throw new SheetError(line, 'an axis number from 0 to 5 after `axis`', quoted(rest.slice(0, 1)));
    }
    this.names[number] = rest.slice(1).join(' ');
    this.drafts.push({ number, title: titleOf(this.names, number), line, entries: {}, lines: {} });
  }

  // Takes any other line.
  take(line, words) {
    if (after(words, 'axis')) this.current += 1;
    if (['axis', 'tick', 'unit'].some(name => after(words, name))) return;
    const takes = { arrival: this.takeArrival, stop: this.takeStop, window: this.takeWindow, dwell: this.takeDwell };
    for (const [name, take] of Object.entries(takes)) {
      const rest = after(words, name);
      if (rest) return take.call(this, line, rest);
    }
    const draft = this.drafts[this.current];
    if (draft) return this.takeEntry(draft, line, words);
    throw new SheetError(line, '`arrival`, `window`, `dwell`, `tick`, `unit`, `axis` or `stop`', quoted(words));
  }

  takeArrival(line, words) {
    if (this.arrivalLine) throw new SheetError(line, 'one `arrival`',
      `another beside that of line ${this.arrivalLine}`);
    Object.assign(this, { arrivalLine: line, arrival: 0n });
    if (words.length === 1 && sameWord(words[0], 'earliest')) return;
    const tick = this.wholeOf({ line, entry: 'arrival', name: 'arrival', expected: ARRIVAL }, words);
    if (tick === 0n) throw new SheetError(line, ARRIVAL, quoted(words));
    if (tick !== null) this.arrival = tick;
  }

  // The whole number of the only amount that words say.
  wholeOf(place, words) {
    const amount = onlyAmount(words);
    if (!amount) throw new SheetError(place.line, place.expected, quoted(words));
    return this.worked.whole({ whose: '', entered: words.join(' '), ...place }, amount);
  }

  takeWindow(line, words) {
    this.windowLines.push(line);
    const ends = amountsOf(words);
    if (!ends || ends.length !== 2 || !ends[0].measure !== !ends[1].measure) throw new SheetError(line, WINDOW,
      quoted(words));
    const [opening, closing] = ['window opening', 'window closing'].map((name, end) =>
      this.worked.whole({ line, entry: name, name, whose: '', entered: ends[end].text, expected: WINDOW }, ends[end]));
    if (opening === null || closing === null) return;
    const [opens, closes] = ends.map(secondsOf);
    if (opening >= closing && opens && closes && opens.minus(closes).isNegative) {
      throw new SheetError(line, 'a window that holds a whole tick after `window`', quoted(words));
    }
    this.windows.push({ opening, closing });
  }

  takeDwell(line, words) {
    if (this.dwellLine) throw new SheetError(line, 'one `dwell`', `another beside that of line ${this.dwellLine}`);
    this.dwellLine = line;
    this.dwell = this.wholeOf({ line, entry: 'dwell', name: 'dwell', expected: DWELL }, words) ?? 0n;
  }

  // Takes a stop; its positions are told apart when all axes are known.
  takeStop(line, words) {
    const at = words.findIndex(word => sameWord(word, 'dwell')), split = at < 0 ? words.length : at;
    const positions = amountsOf(words.slice(0, split)), dwell = at < 0 ? null : onlyAmount(words.slice(split + 1));
    const stop = { line, positions: positions && dwell ? positions : null, dwell: 0n }, index = this.stops.length;
    this.stops.push(stop);
    if (!stop.positions) throw new SheetError(line, STOP, quoted(words));
    const place = { line, entry: 'dwell', name: 'dwell', whose: `stop ${index}`, entered: dwell.text, expected: STOP };
    stop.dwell = this.worked.whole(place, dwell) ?? 0n;
  }

  // Takes an entry of an axis.
  takeEntry(draft, line, words) {
    for (const [name, expected, read] of DAMPING_LINES) {
      const value = after(words, name);
      if (value) return this.takeDamping(draft, line, name, read(value), `${expected} after \`${name}\``, value);
    }
    for (const [name, entry] of NUMBER_LINES) {
      const value = after(words, name);
      if (value) return this.takeNumber(draft, line, name, entry, value);
    }
    const target = after(words, 'target');
    if (target) return this.takeTarget(draft, line, target);
    const names = ENTRIES.map(name => name === 'weight' ? DAMPING : name).join(', ');
    const expected = '`arrival`, `window`, `dwell`, `tick`, `unit`, `axis`, `stop`, `target` or one of: ' + names;
    throw new SheetError(line, expected, quoted(words));
  }

  takeDamping(draft, line, kind, numbers, expected, value) {
    if (draft.damping) {
      throw new SheetError(line, `one of ${DAMPING} for axis ${draft.number}`,
        `another beside that of line ${draft.damping.line}`);
    }
    draft.damping = numbers ? { kind, numbers, line, text: value.join(' ') }
      : { kind: 'weight', numbers: [128n], line };
    if (!numbers) throw new SheetError(line, expected, quoted(value));
  }

  takeNumber(draft, line, name, entry, value) {
    const expectedOnce = `one \`${entry}\` for axis ${draft.number}`;
    if (draft.lines[entry]) throw new SheetError(line, expectedOnce,
      `another beside that of line ${draft.lines[entry]}`);
    draft.lines[entry] = line;
    draft.entries[entry] = 0n;
    const unit = draft.number < AXES ? this.worked.unitOf(draft.number) : null;
    const expected = expectedAfter(name, unit && unit.exact ? unit.name : 'degree'), said = readNumberLine(name, value);
    if (!said) throw new SheetError(line, expected, quoted(value));
    const place = { line, axis: draft.number, entry, whose: draft.title, name, entered: value.join(' '), expected };
    draft.entries[entry] = this.worked.whole(place, said.amount, said) ?? 0n;
  }

  takeTarget(draft, line, value) {
    if (draft.target) {
      throw new SheetError(line, `one \`target\` for axis ${draft.number}`,
        `another beside that of line ${draft.target.line}`);
    }
    const kind = value.length === 1 ? TARGETS.find(kind => sameWord(value[0], kind)) : undefined;
    draft.target = { kind, line };
    if (!kind) throw new SheetError(line, '`still` or `moving` after `target`', quoted(value));
  }
}
