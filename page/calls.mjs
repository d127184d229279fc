// The calls of the proved library, which planned everything that the page shows.
// bindings/c/layout.h has every field's place.

export const AXES = 6;
export const FINE_STEPS = 256;
export const LATEST_ARRIVAL = 4096;
export const MOST_WINDOWS = 32;
export const MOST_STOPS = 64;
export const LONGEST_DWELL = 4096;
const MOST_CELLS = 73746;

const JOB_SIZE = 856, AXIS_SIZE = 96, TOUR_SIZE = 296, LIMITS_SIZE = 40, STOP_SIZE = 56, ANSWER_SIZE = 120;
const DAMPING_KINDS = { weight: 0, shrinks: 1, peaks: 2 };

// The library of the bytes of polgamir.wasm. It imports nothing and keeps nothing between calls.
export async function openLibrary(bytes) {
  const { instance } = await WebAssembly.instantiate(bytes, {});
  return new Library(instance.exports);
}

// The numbers of a mask, lowest first.
export function axesOf(mask) {
  return [0, 1, 2, 3, 4, 5].filter(number => mask >> number & 1);
}

class Library {
  constructor(calls) {
    this.calls = calls;
    this.answer = calls.__heap_base.value + 7 & ~7;
    this.input = this.answer + ANSWER_SIZE;
    this.list = this.input + JOB_SIZE;
    this.stops = this.list + 4 * (MOST_STOPS + 1);
    this.stops += -this.stops & 7;
    this.table = this.list;
    this.table += -this.table & 7;
    const short = this.table + 8 * MOST_CELLS - calls.memory.buffer.byteLength;
    if (short > 0) calls.memory.grow(Math.ceil(short / 65536));
  }

  get view() {
    return new DataView(this.calls.memory.buffer);
  }

  // The version, as in 0.2.0.
  version() {
    const number = this.calls.polgamir_version() >>> 0;
    return [Math.floor(number / 1e6), Math.floor(number / 1e3) % 1e3, number % 1e3].join('.');
  }

  // Plans a job. An accepted one has `table`: its cells in fine steps, as numbers, laid
  // out as the library writes them.
  planJob(job) {
    this.writeJob(job);
    this.calls.polgamir_plan_job(this.answer, this.input, this.table, MOST_CELLS);
    return this.readPlan();
  }

  // Plans the job that words hold.
  planWords(words) {
    new Uint32Array(this.calls.memory.buffer, this.input, words.length).set(words);
    this.calls.polgamir_plan_words(this.answer, this.input, words.length, this.table, MOST_CELLS);
    return this.readPlan();
  }

  // The answer to a job without its table: number 10 stands for an accepted one, and has its
  // arrival.
  arrivalOf(job) {
    this.writeJob(job);
    this.calls.polgamir_plan_job(this.answer, this.input, this.table, 0);
    return this.readAnswer();
  }

  // The least arrival of a job from a tick on, whatever it asks for, or null.
  leastFrom(job, first) {
    this.writeJob(job);
    this.calls.polgamir_search_job(this.answer, this.input, first, LATEST_ARRIVAL);
    const found = this.readAnswer();
    return found.number === 0 && this.view.getUint32(this.answer + 20, true) === 1 ? found.arrival : null;
  }

  // What to raise where an asked arrival is refused with 8: for each axis a list of {
  // limit, by }, the smaller first.
  raises(job) {
    this.writeJob(job);
    this.calls.polgamir_raises_job(this.answer, this.input);
    const limits = [null, 'acceleration limit', 'speed limit'];
    return axesOf(63).map(axis => [0, 8].map(second => {
      const at = this.answer + 24 + 16 * axis + second;
      return { limit: limits[this.view.getUint32(at, true)], by: this.view.getUint32(at + 4, true) };
    }).filter(raise => raise.limit));
  }

  // Plans a tour. An accepted one has its total and the arrivals at its stops.
  planTour(tour, stops) {
    this.writeTour(tour);
    const lent = stops.slice(0, MOST_STOPS + 1);
    lent.forEach((stop, index) => {
      const at = this.stops + STOP_SIZE * index, view = this.view;
      stop.positions.forEach((position, axis) => view.setBigInt64(at + 8 * axis, position, true));
      view.setUint32(at + 48, Number(stop.dwell), true);
    });
    this.calls.polgamir_plan_tour(this.answer, this.input, this.stops, lent.length, this.list, MOST_STOPS + 1);
    const answer = this.readAnswer();
    answer.total = this.view.getUint32(this.answer + 20, true);
    answer.arrivals = answer.number === 0 ? [...new Uint32Array(this.calls.memory.buffer, this.list, lent.length)] : [];
    return answer;
  }

  readAnswer() {
    const view = this.view, at = this.answer;
    return {
      number: view.getUint32(at, true), mask: view.getUint32(at + 4, true),
      place: Number(view.getBigUint64(at + 8, true)), arrival: view.getUint32(at + 16, true),
    };
  }

  readPlan() {
    const answer = this.readAnswer();
    if (answer.number === 0) answer.table = this.readCells(3 * axesOf(answer.mask).length * (answer.arrival + 1));
    return answer;
  }

  // Cells as numbers: they are below 2^53 in size, so that none is rounded.
  readCells(count) {
    const buffer = this.calls.memory.buffer, cells = new Float64Array(count);
    const low = new Uint32Array(buffer, this.table, 2 * count), high = new Int32Array(buffer, this.table, 2 * count);
    for (let i = 0; i < count; i++) cells[i] = high[2 * i + 1] * 4294967296 + low[2 * i];
    return cells;
  }

  writeJob(job) {
    const view = this.view, at = this.input;
    new Uint8Array(view.buffer, at, JOB_SIZE).fill(0);
    view.setUint32(at, maskOf(job.axes), true);
    view.setUint32(at + 4, Number(job.asked), true);
    job.axes.forEach((axis, number) => axis && this.writeAxis(at + 8 + AXIS_SIZE * number, axis));
    if (job.windows) this.writeWindows(at + 584, job.windows);
  }

  writeAxis(at, axis) {
    const view = this.view;
    const numbers = ['start position', 'start velocity', 'target position', 'target velocity', 'target acceleration',
      'target tick'];
    numbers.forEach((name, place) => view.setBigInt64(at + 8 * place, axis[name] ?? 0n, true));
    view.setUint32(at + 48, axis.target === 'moving' ? 1 : 0, true);
    this.writeLimits(at + 52, axis);
  }

  // What polgamir_limits and the end of polgamir_axis have alike.
  writeLimits(at, axis) {
    const view = this.view, { kind, numbers } = axis.damping;
    view.setUint32(at, Number(axis['speed limit']), true);
    view.setUint32(at + 4, Number(axis['acceleration limit']), true);
    view.setUint32(at + 8, Number(axis['half period']), true);
    view.setUint32(at + 12, DAMPING_KINDS[kind], true);
    if (kind === 'weight') view.setUint32(at + 16, Number(numbers[0]), true);
    if (kind === 'shrinks') view.setFloat32(at + 20, numbers[0], true);
    if (kind === 'peaks') numbers.forEach((peak, place) => view.setFloat32(at + 24 + 4 * place, peak, true));
    const second = axis['second half period'];
    view.setUint32(at + 32, second === undefined ? 0 : 1, true);
    view.setUint32(at + 36, Number(second ?? 0), true);
  }

  // A count above the most is written as it is, with the windows that there is
  // room for: the library refuses it.
  writeWindows(at, { dwell, list }) {
    const view = this.view;
    view.setUint32(at, 1, true);
    view.setUint32(at + 4, Number(dwell), true);
    view.setBigUint64(at + 8, BigInt(list.length), true);
    list.slice(0, MOST_WINDOWS).forEach(({ opening, closing }, index) => {
      view.setUint32(at + 16 + 8 * index, Number(opening), true);
      view.setUint32(at + 20 + 8 * index, Number(closing), true);
    });
  }

  writeTour(tour) {
    const view = this.view, at = this.input;
    new Uint8Array(view.buffer, at, TOUR_SIZE).fill(0);
    view.setUint32(at, maskOf(tour.axes), true);
    tour.axes.forEach((axis, number) => {
      if (!axis) return;
      view.setBigInt64(at + 8 + 8 * number, axis['start position'], true);
      this.writeLimits(at + 56 + LIMITS_SIZE * number, axis);
    });
  }
}

// The mask of the axes that a job or a tour has.
export function maskOf(axes) {
  return axes.reduce((mask, axis, number) => axis ? mask | 1 << number : mask, 0);
}
