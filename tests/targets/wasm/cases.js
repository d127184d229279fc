// Runs cases of tests/reference/vectors with polgamir.wasm; `calls.js` comes before it.

function same(got, wanted, what) {
  if (wanted !== '-' && String(got) !== String(wanted)) throw new Error(`${what} is ${got} and not ${wanted}`);
}

function checkAnswer(library, expected) {
  expected.is('answer');
  same(library.field(0), expected.word(), 'the number');
  same(library.place(), expected.word(), 'the place');
  same(library.field(1), expected.word(), 'the mask');
  same(library.field(4), expected.word(), 'the arrival');
}

function checkTable(library, expected, lent) {
  const prime = 2147483647n;
  expected.is('table');
  const written = expected.number(), wanted = expected.word();
  let sum = 0n;
  for (let i = 0; i < written; i++) {
    const cell = library.cell(i), size = cell < 0n ? -cell : cell;
    sum = (31n * sum + 2n * (size % prime) + (cell < 0n ? 1n : 0n)) % prime;
  }
  same(sum, wanted, 'the sum of the cells');
  expected.counted(() => {
    const index = expected.number();
    same(library.cell(index), expected.word(), `cell ${index}`);
  });
  for (let i = written; i < lent + 64; i++) same(library.cell(i), CELL, `cell ${i}`);
}

function checkList(library, wanted, lent, untouched) {
  for (let i = 0; i < lent + 64; i++) same(library.entry(i), i < wanted.length ? wanted[i] : untouched, `entry ${i}`);
}

function runPlan(library, call, expected, name) {
  const lent = call.number();
  library.lend(lent, CELL);
  const [made, ...job] = putJob(library, call, 'polgamir_plan_job');
  library.call(made + name, library.answer, ...job, library.lent, lent);
  checkAnswer(library, expected);
  checkTable(library, expected, lent);
}

const RUN = {
  plan: (library, call, expected) => runPlan(library, call, expected, ''),
  backwards: (library, call, expected) => runPlan(library, call, expected, '_backwards'),
  part(library, call, expected) {
    const first = call.number(), lent = call.number();
    library.lend(lent, CELL);
    const [made, ...job] = putJob(library, call, 'polgamir_plan_job');
    library.call(`${made}_part`, library.answer, ...job, first, library.lent, lent);
    checkAnswer(library, expected);
    expected.is('rows');
    same(library.field(5), expected.word(), 'the number of rows');
    checkTable(library, expected, lent);
  },
  tour(library, call, expected) {
    const lent = call.number();
    library.lend(lent, ENTRY);
    const count = putTour(library, call);
    library.call('polgamir_plan_tour', library.answer, library.job, library.stops, count, library.lent, lent);
    checkAnswer(library, expected);
    expected.is('total');
    same(library.field(5), expected.word(), 'the total');
    expected.is('list');
    checkList(library, expected.counted(() => expected.number()), lent, ENTRY);
  },
  raises(library, call, expected) {
    const [made, ...job] = putJob(library, call, 'polgamir_raises_job');
    library.call(made, library.answer, ...job);
    checkAnswer(library, expected);
    expected.is('raises');
    const raises = Array(24).fill(0);
    expected.counted(() => {
      expected.is('axis');
      const bit = expected.number();
      expected.counted((_, i) => {
        raises[4 * bit + 2 * i] = expected.word() === 'M' ? 1 : 2;
        raises[4 * bit + 2 * i + 1] = expected.number();
      });
    });
    raises.forEach((wanted, i) => same(library.field(6 + i), wanted, `raise ${i}`));
  },
  convert(library, call, expected) {
    const lent = call.number();
    library.lend(lent, WORD);
    call.is('words');
    library.call('polgamir_convert', library.answer, ...putWords(library, call), library.lent, lent);
    checkAnswer(library, expected);
    expected.is('words');
    checkList(library, expected.counted(() => expected.hex()), lent, WORD);
  },
  search(library, call, expected) {
    const first = call.number(), budget = call.number();
    const [made, ...job] = putJob(library, call, 'polgamir_search_job');
    library.call(made, library.answer, ...job, first, budget);
    if (library.field(0) !== 0) return checkAnswer(library, expected);
    const report = ['none', 'found', 'spent'][library.field(5)];
    expected.is(report);
    if (report !== 'none') same(library.field(report === 'found' ? 4 : 6), expected.word(), 'the tick');
    same(library.field(7), expected.word(), 'the candidates tried');
  },
};

function runLine(library, line) {
  const [name, call, expected] = line.split(' | ').map((part, i) => (i === 0 ? part : new Tokens(part)));
  try {
    RUN[call.word()](library, call, expected);
    call.end();
    expected.end();
    return null;
  } catch (error) {
    return `${name}: ${error.message}`;
  }
}

// The text that the table program prints for an answer and its table.
function printed(library) {
  const [number, mask] = [library.field(0), library.field(1)], arrival = library.field(4);
  if (number !== 0) return `refused ${number} place ${library.place()} axes ${mask} arrival ${arrival}\n`;
  const width = 3 * [...mask.toString(2)].filter((bit) => bit === '1').length;
  const rows = Array.from({ length: arrival + 1 }, (_, tick) =>
    [tick, ...Array.from({ length: width }, (_, i) => library.cell(width * tick + i))].join(' '));
  return [`arrival ${arrival}`, ...rows, ''].join('\n');
}

// A job as the bytes of its words, and its stored text.
function runJob(library, name, bytes, text) {
  bytes.forEach((byte, i) => library.memory.setUint8(library.words + i, byte));
  library.call('polgamir_plan_words', library.answer, library.words, bytes.length / 4, library.lent, 73746);
  return printed(library) === text ? null : `${name}: the stored text is another one`;
}

// All of it: vectors as texts, jobs as [name, bytes, text]. Gives back the
// failures, and the lines to print.
async function runAll(wasm, version, vectors, jobs) {
  const { instance } = await WebAssembly.instantiate(wasm, {});
  const library = new Library(instance);
  const lines = vectors.flatMap((text) => text.split('\n')).filter((line) => line !== '' && !line.startsWith('#'));
  const failures = [...lines.map((line) => runLine(library, line)),
                    ...jobs.map((job) => runJob(library, ...job))].filter((x) => x !== null);
  if (library.call('polgamir_version') !== version) failures.push('the version is another one');
  for (const name of Object.keys(instance.exports)) {
    if (name.startsWith('polgamir_') && !library.made.has(name)) failures.push(`${name} was not called`);
  }
  const stack = [...library.stack].map(([name, bytes]) => `stack ${bytes} ${name}`);
  return { failures, said: [...failures, ...stack, `${lines.length + jobs.length} cases, ${failures.length} failed`] };
}
