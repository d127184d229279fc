// The form: the five lines of the set-up sheet, with a field for every entry of a sheet.

import { AXES, MOST_STOPS, MOST_WINDOWS } from './calls.mjs';
import { emptyAxis, field } from './entered.mjs';
import { ruleOf } from './entries.mjs';
import { targetHas } from './assembling.mjs';
import { Fields, element, idOf } from './fields.mjs';

const HALF_PERIODS = [
  ['swings', 'Counted swings'], ['half period', 'Half period'], ['period', 'Whole period'], ['frequency', 'Frequency'],
];
const DAMPINGS = [['shrinks', 'Each swing by the one before'], ['peaks', 'Two peaks, one after the other'],
  ['weight', 'Weight of the blend']];
const SCALES_HINT = 'A tick is the time from one row of the table to the next, a unit what positions are counted in. ' +
  'Without them everything is entered in ticks and units.';
const LABELS = {
  'half period': 'Half period', period: 'Period', frequency: 'Swings there and back in a second',
    'speed limit': 'Speed limit',
  'acceleration limit': 'Acceleration limit', 'start position': 'Start position', 'start velocity': 'Start velocity',
  'target position': 'Target position', 'target velocity': 'Target velocity',
    'target acceleration': 'Target acceleration',
  'target tick': 'Time of that position',
};

// The form of what is entered. `changed(id)` is called after a change of a field, `rebuilt()` after
// one of which fields there are.
export class Form extends Fields {
  constructor(place, entered, changed) {
    super();
    Object.assign(this, { place, entered, changed });
    this.build();
  }

  show(entered) {
    this.entered = entered;
    this.build();
    this.changed(null);
  }

  // Builds the fields anew, and keeps the focus where it was.
  build() {
    const { entered } = this, focused = document.activeElement?.id;
    const line = entered.kind === 'job' ? this.arrivalPart() : this.stopsPart();
    this.place.replaceChildren(
      this.kindPart(), this.scalesPart(), ...entered.axes.map((_, index) => this.axisPart(index)), this.addAxis(),
        line, this.notePart());
    if (focused) document.getElementById(focused)?.focus();
  }

  rebuild(change) {
    change();
    this.build();
    this.changed(null);
  }

  kindPart() {
    const { entered } = this;
    const choice = (kind, label) => element('label', { class: 'choice' }, element('input', {
      type: 'radio', name: 'kind', value: kind, id: idOf('kind', kind), checked: entered.kind === kind,
      onchange: () => this.rebuild(() => {
        entered.kind = kind;
        if (kind === 'tour' && !entered.stops.length) this.pushStop();
      }),
    }), label);
    return element('div', { class: 'choices', role: 'radiogroup', 'aria-label': 'What to plan' },
      choice('job', 'One target'), choice('tour', 'A tour of stops'));
  }

  scalesPart() {
    const { entered } = this, tick = this.text('tick', entered.tick, 'text', { inputmode: 'decimal' });
    const measure = this.select('tick.measure', [['ms', 'ms'], ['s', 's']], entered.tick.measure || 's', value => {
      entered.tick.measure = value;
      this.changed('tick');
    }, 'Tick: measured in');
    return element('details', { class: 'card', open: !entered.tick.text || !entered.unit },
      element('summary', {}, 'What a tick and a unit are'),
      element('p', { class: 'hint' }, SCALES_HINT),
      this.field('tick', 'Tick', tick, measure), this.unitField('unit', 'Unit', entered, 'One unit is'));
  }

  axisPart(index) {
    const { entered } = this, axis = entered.axes[index], id = `axis.${index}`,
      unit = axis.unit.trim() || entered.unit.trim();
    const used = entered.axes.map(other => other.number),
      free = [...Array(AXES).keys()].filter(number => number === axis.number || !used.includes(number));
    const number = this.select(id + '.number', free.map(number => [String(number), `axis ${number}`]),
      String(axis.number), value => this.rebuild(() => {
      axis.number = Number(value);
      this.sortAxes();
    }), 'Number of the axis');
    const title = axis.name.trim() || `axis ${axis.number}`;
    const head = element('div', { class: 'axis-head' },
      this.field(id, 'Axis', this.text(id, axis, 'name',
        { placeholder: 'name', 'aria-label': `Name of axis ${axis.number}` }), number));
    const remove = entered.axes.length > 1 && element('button', {
      type: 'button', class: 'quiet', onclick: () => this.rebuild(() => {
        entered.axes.splice(index, 1);
        for (const stop of entered.stops) stop.positions.splice(index, 1);
      }),
    }, `Remove ${title}`);
    return element('fieldset', { class: 'card axis', id: idOf(id, 'card') }, element('legend', {}, title), head,
      this.polePart(axis, id), this.limitsPart(axis, id, unit), this.coursePart(axis, id, unit),
        this.ownUnit(axis, id), remove);
  }

  ownUnit(axis, id) {
    return element('details', { open: Boolean(axis.unit || axis.size) }, element('summary', {}, 'A unit of its own'),
      this.unitField(id + '.unit', 'Unit of the axis', axis, 'One unit of this axis is'));
  }

  // The axes in the order of their numbers, with the positions of the stops.
  sortAxes() {
    const { entered } = this, order = entered.axes.map((axis, index) => ({ axis, index })).sort((one, other) =>
      one.axis.number - other.axis.number);
    for (const stop of entered.stops) stop.positions = order.map(({ index }) => stop.positions[index]);
    entered.axes = order.map(({ axis }) => axis);
  }

  polePart(axis, id) {
    const { damping } = axis, entry = id + '.damping';
    const how = this.select(entry + '.how', DAMPINGS, damping.how,
      value => this.rebuild(() => { damping.how = value; }));
    const numbers = damping.how === 'peaks'
      ? [this.text(entry, damping, 'first', { inputmode: 'decimal', 'aria-label': 'First peak', placeholder: '31' }),
        this.text(entry + '.second', damping, 'second',
          { inputmode: 'decimal', 'aria-label': 'Second peak', placeholder: '24' })]
      : [this.text(entry, damping, 'one', { inputmode: 'decimal',
        placeholder: damping.how === 'weight' ? '113' : '0.8',
        'aria-label': DAMPINGS.find(([key]) => key === damping.how)[1] })];
    const second = element('label', { class: 'check' }, element('input', {
      type: 'checkbox', id: idOf(id, 'has-second'), checked: axis.hasSecond,
        onchange: event => this.rebuild(() => { axis.hasSecond = event.target.checked; }),
    }), 'A pole with a joint: it swings at a second rate too');
    return this.part(1, 'Tap the pole', ...this.periodFields(axis.pole, id + '.half period', ''),
      this.field(entry + '.how', 'How far each swing shrinks', how), this.field(entry, 'As noted', ...numbers), second,
      ...axis.hasSecond ? this.periodFields(axis.second, id + '.second half period', 'Second rate: ') : []);
  }

  // How a half period was noted, and its numbers.
  periodFields(pole, id, prefix) {
    const how = this.select(id + '.how', HALF_PERIODS, pole.how, value => this.rebuild(() => {
      pole.how = value;
      if (value !== 'frequency' && !['s', 'ms', ''].includes(pole.measure)) pole.measure = 's';
    }));
    const choice = this.field(id + '.how', `${prefix}How long a swing takes`, how);
    if (pole.how === 'frequency') return [choice,
      this.field(id, prefix + LABELS.frequency,
      this.text(id, pole, 'text', { inputmode: 'decimal', placeholder: '1.19' }),
      element('span', { class: 'suffix' }, 'Hz'))];
    if (pole.how !== 'swings') return [choice, this.number(id, prefix + LABELS[pole.how], pole, 'time', '')];
    const count = this.text(id + '.count', pole, 'count',
      { inputmode: 'numeric', 'aria-label': `${prefix}Number of swings there and back`, placeholder: '10' });
    const time = this.number(id, `${prefix}Swings there and back, and their time`, pole, 'time', '');
    time.querySelector('.controls').prepend(count, element('span', { class: 'suffix' }, 'in'));
    return [choice, time];
  }

  limitsPart(axis, id, unit) {
    return this.part(2, 'Limits of the motor',
      ...['speed limit', 'acceleration limit'].map(name => this.entry(axis, id, name, unit)));
  }

  entry(axis, id, name, unit) {
    const { quantity, isSigned } = ruleOf(name);
    return this.number(`${id}.${name}`, LABELS[name], axis[name], quantity, unit, isSigned);
  }

  coursePart(axis, id, unit) {
    if (this.entered.kind === 'tour') return this.part(3, 'Start', this.entry(axis, id, 'start position', unit));
    const kinds = [['still', 'Still'], ['moving', 'Moving'],
      ...axis.target === 'flying' ? [['flying', 'Flying, of an old sheet']] : []];
    const target = this.select(id + '.target', kinds, axis.target,
      value => this.rebuild(() => { axis.target = value; }));
    const names = ['target position', 'target velocity', 'target acceleration',
      'target tick'].filter(name => targetHas(axis.target, name));
    return this.part(3, 'Start and target', this.entry(axis, id, 'start position', unit),
      this.entry(axis, id, 'start velocity', unit),
      this.field(id + '.target', 'Target', target), ...names.map(name => this.entry(axis, id, name, unit)));
  }

  addAxis() {
    const { entered } = this, free = [...Array(AXES).keys()].find(number =>
      !entered.axes.some(axis => axis.number === number));
    return free !== undefined && element('button', {
      type: 'button', id: 'add-axis', onclick: () => this.rebuild(() => {
        const axis = emptyAxis(free, free === 1 && !entered.axes.some(axis => axis.name === 'tilt') ? 'tilt' : '');
        if (!entered.unit) for (const name of ['speed limit', 'acceleration limit', 'start position',
          'target position']) axis[name].measure = '';
        entered.axes.push(axis);
        for (const stop of entered.stops) stop.positions.push(field('', entered.unit ? 'unit' : ''));
        this.sortAxes();
      }),
    }, 'Add an axis');
  }

  arrivalPart() {
    const { entered } = this, { arrival } = entered;
    const how = this.select('arrival.how', [['earliest', 'As early as possible'], ['at', 'At a time']], arrival.how,
      value => this.rebuild(() => { arrival.how = value; }));
    const windows = element('label', { class: 'check' }, element('input', {
      type: 'checkbox', id: idOf('has-windows'), checked: entered.hasWindows, onchange: event => this.rebuild(() => {
        entered.hasWindows = event.target.checked;
        if (!entered.windows.length) this.pushWindow();
      }),
    }), 'Only in windows that the site permits');
    return element('fieldset', { class: 'card' }, element('legend', {}, 'Arrival'),
      this.part(4, 'When to arrive', this.field('arrival.how', 'Arrival', how),
      arrival.how === 'at' && this.number('arrival', 'Time of arrival', arrival, 'time', ''), windows,
        ...entered.hasWindows ? this.windowFields() : []));
  }

  pushWindow() {
    const measure = this.entered.tick.text ? 's' : '';
    this.entered.windows.push({ opening: field('', measure), closing: field('', measure), marks: {} });
  }

  windowFields() {
    const { entered } = this;
    const windows = entered.windows.map((window, index) => {
      const id = `window.${index}`, measure = this.select(id + '.measure', [['s', 's'], ['ms', 'ms'], ['', 'ticks']],
        window.opening.measure, value => {
        window.opening.measure = window.closing.measure = value;
        this.changed(id);
      }, `Window ${index}: measured in`);
      const end = (part, label) => this.text(part === 'opening' ? id : `${id}.${part}`, window[part], 'text',
        { inputmode: 'decimal', 'aria-label': `Window ${index} ${label}` });
      const remove = element('button', { type: 'button', class: 'sign', 'aria-label': `Remove window ${index}`,
        onclick: () => this.rebuild(() => { entered.windows.splice(index, 1); }) }, '×');
      return this.field(id, `Window ${index}: opens, closes`, end('opening', 'opens'), end('closing', 'closes'),
        measure, remove);
    });
    const add = entered.windows.length <= MOST_WINDOWS &&
      element('button', { type: 'button', id: 'add-window', onclick: () => this.rebuild(() => this.pushWindow()) },
      'Add a window');
    return [this.number('dwell', 'How long the head stays', entered.dwell, 'time', ''), ...windows, add];
  }

  pushStop() {
    const { entered } = this, measure = entered.unit ? 'unit' : '';
    entered.stops.push({ positions: entered.axes.map(() => field('', measure)),
      dwell: field('', entered.tick.text ? 's' : ''), note: '', marks: {} });
  }

  stopsPart() {
    const { entered } = this;
    const stops = entered.stops.map((stop, index) => {
      const id = `stop.${index}`;
      const positions = entered.axes.map((axis, place) => {
        const name = axis.name.trim() || `axis ${axis.number}`, holder = stop.positions[place] ??= field('', 'unit');
        return this.number(`${id}.${place}`, `${name} of stop ${index}`, holder, 'position',
          axis.unit.trim() || entered.unit.trim(), true);
      });
      const remove = element('button', { type: 'button', class: 'quiet',
        onclick: () => this.rebuild(() => { entered.stops.splice(index, 1); }) }, `Remove stop ${index}`);
      const message = element('p', { class: 'message', id: idOf(id, 'message') });
      return element('fieldset', { class: 'stop' }, element('legend', {}, `Stop ${index}`), message, ...positions,
        this.number(id + '.dwell', `Stay at stop ${index}`, stop.dwell, 'time', ''),
          this.field(id + '.note', 'Note', this.text(id + '.note', stop, 'note',
          { placeholder: 'oak, breast height' })), remove);
    });
    const add = entered.stops.length <= MOST_STOPS &&
      element('button', { type: 'button', id: 'add-stop', onclick: () => this.rebuild(() => this.pushStop()) },
      'Add a stop');
    return element('fieldset', { class: 'card' }, element('legend', {}, 'Stops'), ...stops, add);
  }

  notePart() {
    const note = element('textarea', { id: idOf('note'), rows: '2',
      oninput: () => { this.entered.note = note.value; this.changed('note'); } });
    note.value = this.entered.note;
    return element('div', { class: 'card' }, this.field('note', 'Note on the sheet', note));
  }
}
