// A refusal in words: what is wrong, what to do, and what it is about. The words are those
// of the command; the text of each number is the header's, and the arrivals and raises that
// would do are asked of the library.

import { AXES, LATEST_ARRIVAL, LONGEST_DWELL, MOST_STOPS, MOST_WINDOWS, axesOf } from './calls.mjs';
import { legOf, titleOf } from './assembling.mjs';
import { Fraction } from './fraction.mjs';
import { fitsWindow, measuresOf } from './measures.mjs';

// A tick with its seconds, where the sheet says them: `tick 50 (0.5 s)`.
export function tickTold(setup, tick) {
  return `tick ${tick}${secondsTold(setup, tick)}`;
}

// The seconds of ticks between brackets, or nothing where the sheet does not say them.
export function secondsTold(setup, ticks) {
  const tick = setup.worked.tick?.exact;
  return tick ? ` (${Fraction.whole(ticks).times(tick).shown(9)} s)` : '';
}

// What a crew calls an axis: its name, or its number where it has none or shares it.
export function called(setup, number) {
  const name = setup.names[number], isShared = setup.names.some((other, at) => at !== number && name && other === name);
  return name && !isShared ? name : titleOf(setup.names, number);
}

function calledAll(setup, mask) {
  const names = axesOf(mask).map(number => called(setup, number)), last = names.pop();
  if (last === undefined) return 'no axis';
  return names.length ? `${names.join(', ')} and ${last}` : last;
}

// The refusal of a job: { number, sentence, remedy, raises, least, next }.
export function refusalOfJob(library, setup, job, answer) {
  const { number } = answer, asked = Number(job.asked);
  const told = { number, least: null, next: null, raises: [], axis: null };
  if ([4, 12, 5, 15, 6, 16, 17].includes(number)) told.axis = answer.place;
  if (number === 8) {
    told.least = library.leastFrom(job, 1);
    told.next = asked < LATEST_ARRIVAL ? library.leastFrom(job, asked + 1) : null;
    told.raises = raisesTold(library.raises(job), setup, job, answer);
  }
  told.sentence = `No plan: ${causeOf(setup, job, answer, told)}`;
  told.remedy = remedyOf(job, answer, told);
  return told;
}

// The refusal of a tour: that of a leg is the one of its job.
export function refusalOfTour(library, setup, answer) {
  const { number, place } = answer, sentence = text => ({ number, stop: place, raises: [], ...text });
  if (number === 11 && place === MOST_STOPS) {
    return sentence({
      sentence: `No plan: there are ${setup.stops.length} stops, and a tour has at most ${MOST_STOPS}.`,
      remedy: 'Enter the later stops as a tour of their own.',
    });
  }
  if (number === 11) {
    return sentence({
      sentence: `No plan: the dwell of stop ${place} is above ${LONGEST_DWELL} ticks.`,
      remedy: `Enter a dwell from 0 to ${LONGEST_DWELL} ticks.`,
    });
  }
  const job = legOf(setup.tour, setup.stops, place), told = refusalOfJob(library, setup, job, library.arrivalOf(job));
  const cause = told.sentence.replace(/^No plan: /, '');
  return { ...told, stop: place, sentence: `No plan for the leg to stop ${place}: ${cause}` };
}

// What is wrong, after `No plan:`.
function causeOf(setup, job, { number, mask, place }, told) {
  const asked = tickTold(setup, Number(job.asked)), latest = `${LATEST_ARRIVAL}${secondsTold(setup, LATEST_ARRIVAL)}`;
  const names = calledAll(setup, mask), axis = called(setup, place);
  switch (number) {
    case 8: return mask === 0
      ? `every axis can arrive at ${asked}, but it fits no window. ${thoseThatDo(setup, job, told, latest)}`
      : `${names} cannot arrive at ${asked}. ${thoseThatDo(setup, job, told, latest)}`;
    case 9: return mask === 0
      ? `each axis can arrive, but no tick from 1 to ${latest} suits all of them${job.windows ? AND_FITS : ''}.`
      : `${names} can arrive at no tick from 1 to ${latest}.`;
    case 3: return `the asked arrival, ${asked}, is after the latest one, ${latest}.`;
    case 1: return 'the job has no axis.';
    case 4: return `a limit of ${axis} is outside its range.`;
    case 12: return `the damping of ${axis} as measured is outside its range.`;
    case 5: return `the half period or weight of ${axis} is outside its range.`;
    case 15: return `the second half period of ${axis} is outside its range.`;
    case 6: return `start or target of ${axis} is outside its range.`;
    case 16: return `the target of ${axis} accelerates, and its pole has a second half period.`;
    case 17: return `the fixed target of ${axis} has a velocity, and a fixed target is at rest.`;
    case 13: return 'the windows cannot be used as they stand.';
    default: return 'the job is refused.';
  }
}

// Which arrivals would do in place of the asked one.
function thoseThatDo(setup, job, { least, next }, latest) {
  const asked = Number(job.asked);
  if (least === null) return `No tick from 1 to ${latest} would do.`;
  if (least > asked) return `Earliest: ${tickTold(setup, least)}.`;
  if (next === null) return `Earliest: ${tickTold(setup, least)}; none after ${tickTold(setup, asked)} would do.`;
  return `Earliest: ${tickTold(setup, least)}; the next one after ${tickTold(setup, asked)}: ${tickTold(setup, next)}.`;
}

const NEARER = 'Bring start and target nearer, change a moving target, or raise limits as far as the motors allow.';
const WINDOWS = 'Look whether the site permits other windows or a shorter dwell does, or change limits or targets.';
const NO_ACCELERATION =
  'Enter a target without acceleration, or leave the second half period out and let the pole sway at that rate.';
const IN_ORDER =
  `Enter 1 to ${MOST_WINDOWS} windows in the order of their ticks, and a dwell from 0 to ${LONGEST_DWELL}.`;
const AND_FITS = ' and fits a window';
const TAP_AGAIN = 'Tap again and enter what the pole does.';

// What to do. In place of the command's advice which line to write, the page has buttons
// for the arrivals that would do.
function remedyOf(job, { number, mask }, { least }) {
  const isWindowed = job.windows && mask === 0;
  switch (number) {
    case 8: return least === null ? (isWindowed ? WINDOWS : NEARER)
      : isWindowed ? 'Take another arrival, or look whether the site permits other windows or a shorter dwell does.'
        : 'Take another arrival.';
    case 9: return isWindowed ? WINDOWS : NEARER;
    case 3: return `Enter a tick from 1 to ${LATEST_ARRIVAL}, or the earliest arrival.`;
    case 1: return `Enter at least one of the axes 0 to ${AXES - 1}.`;
    case 4: return 'Enter what the motor allows, within the range.';
    case 12: case 5: case 15: return TAP_AGAIN;
    case 6: return 'Enter where the axis is and goes, within what its limits allow.';
    case 16: return NO_ACCELERATION;
    case 17: return 'Make it a moving target with the same position and velocity, and say at which tick it is there.';
    case 13: return IN_ORDER;
    default: return 'Nothing was planned.';
  }
}

// The raises of each axis in words, and that the tick fits no window, which raises do not heed.
function raisesTold(raises, setup, job, { mask }) {
  const lines = axesOf(mask).map(number => {
    const told = raises[number].map(({ limit, by }) => raiseTold(setup, number, limit, by, job.axes[number][limit]));
    return told.length ? `${called(setup, number)}: the ${told.join(', or the ')}`
      : `${called(setup, number)}: no speed limit and no acceleration limit alone would let it arrive then`;
  });
  if (mask && job.windows && !fitsWindow(job.windows,
    job.asked)) lines.push(`${tickTold(setup, Number(job.asked))} fits no window either`);
  return lines;
}

function raiseTold(setup, number, limit, by, from) {
  const { isPlain, names } = measuresOf(setup, number), to = from + BigInt(by), isSpeed = limit === 'speed limit';
  const unit = setup.worked.unitOf(number)?.exact ?? Fraction.whole(1),
    tick = setup.worked.tick?.exact ?? Fraction.whole(1);
  const size = isSpeed ? unit.over(tick) : unit.over(tick.times(tick));
  const measured = isPlain ? '' : ` (${new Fraction(to).times(size).shown(9)} ${names[isSpeed ? 1 : 2]})`;
  return `${limit} by ${by} to ${to}${measured}`;
}
