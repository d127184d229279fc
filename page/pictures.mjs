// The pictures of a plan: for each axis position, velocity and acceleration with their limits, and
// the sway beside the one that the same job would leave without the blend.

import { FINE_STEPS } from './calls.mjs';
import { titleOf } from './assembling.mjs';
import { extremesOf, pathOf, roundValues, scaleOf } from './curve.mjs';
import { measuresOf, shownFloat, swayTold } from './measures.mjs';
import { enteredPeriods, polesOf, swayOf } from './sway.mjs';

// A panel's height, and the room around its plot; a remark that does not fit beside
// the name has a line of its own.
const PLOT = 104, ABOVE = 22, BELOW = 22, RIGHT = 10, LINE = 14;

// Text for HTML.
export function escaped(text) {
  return String(text).replace(/[&<>"']/g, sign => `&#${sign.charCodeAt(0)};`);
}

// A list times a factor.
function scaled(list, by) {
  const made = new Float64Array(list.length);
  for (let place = 0; place < list.length; place++) made[place] = list[place] * by;
  return made;
}

// The panels of each axis of a job: { title, panels, sways }.
export function panelsOfJob(setup, plan) {
  const { job, rows, arrival, last, unblended } = plan;
  return job.axes.map((axis, number) => {
    if (!axis) return null;
    const measures = measuresOf(setup, number), { fine } = measures;
    const columns = [rows[number].position, rows[number].velocity,
      rows[number].acceleration].map((list, at) => scaled(list, fine[at]));
    const after = afterOf(columns, measures, arrival, last), target = targetOf(axis, measures, last);
    const panels = ['position', 'velocity', 'acceleration'].map((name, at) => panelOf({
      name: `${name}, ${measures.names[at]}`, isStepped: at === 2, plan: columns[at], after: after[at],
        target: target[at],
      limit: at === 0 ? null : Number(axis[at === 1 ? 'speed limit' : 'acceleration limit']) * measures.sizes[at],
    }));
    const poles = polesOf(axis, enteredPeriods(setup.notes, number, axis)), sways = [];
    const [pushes, bare] = [rows, unblended?.rows].map(source => source &&
      scaled(source[number].acceleration, measures.sizes[0] / FINE_STEPS));
    for (const pole of poles) {
      const sway = swayOf(pole, pushes, last), without = bare ? swayOf(pole, bare, last) : null;
      sways.push({ name: pole.name, left: sway.left, without: without?.left ?? null, measure: measures.name });
      panels.push(swayPanel(pole, sway, without, measures, unblended));
    }
    return { number, title: titleOf(setup.names, number), panels, sways };
  }).filter(axis => axis);
}

// The plan from the arrival on: its last row carried on under its acceleration, at some ticks.
function afterOf(columns, { tick }, arrival, last) {
  const [position, velocity, acceleration] = columns.map(list => list[arrival]), per = tick ?? 1;
  const at = sampled(arrival, last), since = at.map(tick => (tick - arrival) * per);
  return [
    since.map(time => position + velocity * time + acceleration * time * time / 2),
    since.map(time => velocity + acceleration * time), since.map(() => acceleration),
  ].map(values => ({ ticks: at, values }));
}

// The target all along.
function targetOf(axis, { sizes, tick }, last) {
  const isMoving = axis.target === 'moving', per = tick ?? 1, at = isMoving ? sampled(0, last) : [0, last];
  const number = (name, size) => isMoving || name === 'target position' ? Number(axis[name]) * size : 0;
  const position = number('target position', sizes[0]), velocity = number('target velocity', sizes[1]);
  const acceleration = number('target acceleration', sizes[2]), from = isMoving ? Number(axis['target tick']) : 0;
  const since = at.map(tick => (tick - from) * per);
  return [
    since.map(time => position + velocity * time + acceleration * time * time / 2),
    since.map(time => velocity + acceleration * time), since.map(() => acceleration),
  ].map(values => ({ ticks: at, values }));
}

// At most 61 ticks, evenly from one to another.
function sampled(from, to) {
  const count = Math.min(60, Math.max(to - from, 1));
  return Array.from({ length: count + 1 }, (_, place) => from + (to - from) * place / count);
}

// A panel of a course: its curves from the bottom to the top, its range, its limits.
function panelOf({ name, plan, after, target, limit, isStepped, ticks = null }) {
  let [least, greatest] = extremesOf([plan, after?.values ?? []]), remark = '', limits = [];
  const size = Math.max(Math.abs(least), Math.abs(greatest));
  if (limit !== null && limit <= 4 * size) {
    limits = [-limit, limit].filter(value => value < 0 ? least < -limit / 4 : greatest > limit / 4);
    [least, greatest] = extremesOf([[least, greatest, 0], limits]);
  }
  if (limit !== null) remark = `up to ${shownFloat(size)} of ${shownFloat(limit)}`;
  else remark = `${shownFloat(least, 9)} to ${shownFloat(greatest, 9)}`;
  const curves = [{ kind: 'plan', ticks, values: plan, isStepped }];
  if (after) curves.push({ kind: 'goes-on', ...after });
  if (target) curves.push({ kind: 'target', ...target });
  return { name, remark, curves, limits, range: [least, greatest], marks: [] };
}

function swayPanel(pole, sway, without, measures, unblended) {
  const curves = [{ kind: 'plan', ...sway }];
  if (without) curves.unshift({ kind: 'unblended', ...without });
  const remark = `left ${swayTold(sway.left)}${without ? `; without the blend ${swayTold(without.left)}` : ''}`;
  const marks = without ? [unblended.arrival] : [];
  return { name: `${pole.name} in proportion, ${measures.name}`, remark, curves, limits: [], marks,
    range: extremesOf(curves.map(curve => curve.values)) };
}

// The panels of each axis of a tour: position, velocity and sway from its start to its end.
export function panelsOfTour(setup, plan) {
  return setup.tour.axes.map((axis, number) => {
    if (!axis) return null;
    const measures = measuresOf(setup, number), { fine } = measures;
    const [position, velocity] = ['position', 'velocity'].map((name, at) => legCurve(plan, number, name, fine[at]));
    const panels = [
      panelOf({ name: `position, ${measures.names[0]}`, plan: position.values, ticks: position.ticks, limit: null }),
      panelOf({ name: `velocity, ${measures.names[1]}`, plan: velocity.values, ticks: velocity.ticks,
        limit: Number(axis['speed limit']) * measures.sizes[1] }),
    ];
    const sways = polesOf(axis, enteredPeriods(setup.notes, number, axis)).map(pole => {
      const sway = swayOf(pole, tourPushes(plan, number, measures.sizes[0] / FINE_STEPS), plan.last),
        left = leftAtStops(plan, sway);
      panels.push(swayPanel(pole, { ...sway, left }, null, measures, null));
      return { name: pole.name, left, without: null, measure: measures.name };
    });
    return { number, title: titleOf(setup.names, number), panels, sways };
  }).filter(axis => axis);
}

// A quantity of an axis over a tour: the rows of its legs, one after the other.
function legCurve(plan, number, name, fine) {
  const count = plan.legs.reduce((sum, leg) => sum + leg.ticks + 2, 0), ticks = new Float64Array(count),
    values = new Float64Array(count);
  let at = 0;
  for (const leg of plan.legs) {
    const list = leg.rows[number][name];
    for (let row = 0; row <= leg.ticks; row++, at++) [ticks[at], values[at]] = [leg.departure + row, list[row] * fine];
    [ticks[at], values[at]] = [leg.arrival + leg.dwell, list[leg.ticks] * fine];
    at += 1;
  }
  return { ticks, values };
}

function tourPushes(plan, number, size) {
  const pushes = new Float64Array(plan.last + 1);
  for (const leg of plan.legs) {
    const list = leg.rows[number].acceleration;
    for (let row = 0; row < leg.ticks; row++) pushes[leg.departure + row] = list[row] * size;
  }
  return pushes;
}

// The greatest sway from an arrival to the next departure.
function leftAtStops(plan, { ticks, values }) {
  let left = 0, at = 0;
  for (const leg of plan.legs) {
    while (at < ticks.length && ticks[at] < leg.arrival) at += 1;
    for (; at < ticks.length && ticks[at] <= leg.arrival + leg.dwell; at++) left = Math.max(left, Math.abs(values[at]));
  }
  return left;
}

// Draws a panel of a width, as SVG. `time` is { last, tick, marks, areas }: areas are { from,
// to, kind }, marks { at, kind }.
export function drawPanel(panel, title, width, time) {
  const above = ABOVE + (6.6 * panel.name.length + 5.8 * panel.remark.length > width - 12 ? LINE : 0),
    bottom = above + PLOT;
  const [least, greatest] = panel.range, room = (greatest - least || Math.abs(greatest) || 1) * 0.06;
  const y = scaleOf(least - room, greatest + room, bottom, above), across = roundValues(y, 5);
  const labels = across.values.map(across.label), longest = Math.max(0, ...labels.map(label => label.length));
  const left = Math.min(10 + 6.6 * longest, width / 3), right = width - RIGHT, x = scaleOf(0, time.last, left, right);
  const upright = (at, kind) => `<path class="${kind}" d="M${x(at).toFixed(1)} ${above}V${bottom}"/>`;
  const level = (value, kind) => `<path class="${kind}" d="M${left} ${y(value).toFixed(1)}H${right}"/>`;
  const label = (value, at) => textAt('end', left - 5, y(value) + 4, labels[at]);
  const marks = [...panel.marks.map(at => ({ at, kind: 'unblended' })),
    ...time.marks].filter(({ at }) => at <= time.last);
  const parts = [
    ...time.areas.map(area => areaOf(area, x, above)),
      ...across.values.map((value, at) => level(value, 'grid') + label(value, at)),
    ...timeLabels(x, time, width, above), ...panel.limits.map(limit => level(limit, 'limit')),
      ...marks.map(({ at, kind }) => upright(at, kind)),
  ];
  const curves = panel.curves.map(({ kind, ticks, values, isStepped }) =>
    `<path class="${kind}" d="${pathOf(ticks, values, x, y, isStepped)}"/>`);
  const size = `width="${right - left}" height="${PLOT}"`, box = `${left} ${above} ${right - left} ${PLOT}`;
  const plot = `<svg x="${left}" y="${above}" ${size} viewBox="${box}">${curves.join('')}</svg>`;
  const name = escaped(`${title}: ${panel.name}: ${panel.remark}`), isBelow = above > ABOVE;
  const remark = isBelow ? textAt('remark', 2, 14 + LINE, panel.remark)
    : textAt('end remark', width - 2, 14, panel.remark);
  const data = `data-left="${left}" data-right="${right}" data-width="${width}" data-top="${above}"`;
  return `<svg class="panel" role="img" aria-label="${name}" viewBox="0 0 ${width} ${bottom + BELOW}" ${data}>` +
    `${textAt('name', 2, 14, panel.name)}${remark}${parts.join('')}${plot}<path class="cursor" d=""/></svg>`;
}

function textAt(kind, x, y, text) {
  return `<text class="${kind}" x="${x.toFixed(1)}" y="${y.toFixed(1)}">${escaped(text)}</text>`;
}

function areaOf({ from, to, kind }, x, above) {
  const [start, end] = [x(from), Math.min(x(to), x.to)];
  const size = `width="${(end - start).toFixed(1)}" height="${PLOT}"`;
  return end > start ? `<rect class="${kind}" x="${start.toFixed(1)}" y="${above}" ${size}/>` : '';
}

// The ticks, or the seconds where they are known, below a panel.
function timeLabels(x, { last, tick }, width, above) {
  const scale = scaleOf(0, last * (tick ?? 1), x.from, x.to), count = Math.max(2, Math.floor((width - x.from) / 62));
  const { values, label } = roundValues(scale, count, tick ? 0 : 1), bottom = above + PLOT;
  return values.map((value, at) => `<path class="grid" d="M${scale(value).toFixed(1)} ${above}V${bottom}"/>` +
    textAt('middle', scale(value), bottom + 15, label(value) + (tick && at === values.length - 1 ? ' s' : '')));
}
