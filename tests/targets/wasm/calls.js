// Calls polgamir.wasm from JavaScript, for the tests of this folder. Structs are laid out as
// bindings/c/layout.h says; numbers of 64 bits are BigInts. A job is read from the tokens of a
// case (tests/reference/README.md).

const CELL = -1234567890123n, ENTRY = 987654321, WORD = 0xDEADBEEF;

// The tokens of a part of a line.
class Tokens {
  constructor(part) { this.left = part.trim().split(' ').reverse(); }
  word() {
    if (this.left.length === 0) throw new Error('a token is lacking');
    return this.left.pop();
  }
  is(word) {
    const found = this.word();
    if (found !== word) throw new Error(`${word} was expected, not ${found}`);
  }
  number() { return Number(this.word()); }
  big() { return BigInt(this.word()); }
  hex() { return parseInt(this.word(), 16); }
  counted(read) { return Array.from({ length: this.number() }, read); }
  end() { if (this.left.length !== 0) throw new Error('tokens are left over'); }
}

// The memory of the module, and places in it for what a call reads and writes.
class Library {
  constructor(instance) {
    this.calls = instance.exports;
    this.memory = new DataView(this.calls.memory.buffer);
    this.answer = Math.ceil(this.calls.__heap_base.value / 8) * 8;
    this.job = this.answer + 256;
    this.words = this.job + 1024;
    this.stops = this.words + 4096;
    this.lent = this.stops + 16384;
    this.made = new Set();
    this.stack = new Map();
  }
  u32(at, value) { this.memory.setUint32(at, value, true); }
  i64(at, value) { this.memory.setBigInt64(at, BigInt.asIntN(64, value), true); }
  clear(at, bytes) { new Uint8Array(this.memory.buffer, at, bytes).fill(0); }

  // Makes a call of the header; the place of the answer comes first where it is a
  // struct. The stack, at the start of the memory, is painted before it: how far down
  // the paint is gone says what the call took.
  call(name, ...values) {
    const stack = new Uint8Array(this.memory.buffer, 0, 65536).fill(0xA5);
    const given = this.calls[name](...values);
    const used = stack.length - stack.findIndex((byte, i) => byte !== 0xA5 || i === stack.length - 1);
    this.stack.set(name, Math.max(used, this.stack.get(name) ?? 0));
    this.made.add(name);
    return given;
  }

  lend(count, untouched) {
    const wide = typeof untouched === 'bigint';
    for (let i = 0; i < count + 64; i++) {
      if (wide) this.i64(this.lent + 8 * i, untouched); else this.u32(this.lent + 4 * i, untouched);
    }
  }
  cell(i) { return this.memory.getBigInt64(this.lent + 8 * i, true); }
  entry(i) { return this.memory.getUint32(this.lent + 4 * i, true); }
  field(i) { return this.memory.getUint32(this.answer + 4 * i, true); }
  place() { return this.memory.getBigUint64(this.answer + 8, true); }
}

// ---- jobs

function putWords(library, tokens) {
  const words = tokens.counted(() => tokens.hex());
  words.forEach((word, i) => library.u32(library.words + 4 * i, word));
  return [library.words, words.length];
}

// Speed limit to second half period, in the order of polgamir_limits; `at` is the place of each.
function putLimits(library, tokens, at) {
  const [speed, acceleration, half, kind, weight, ratio, first, second, given, period] = at;
  library.u32(speed, tokens.number());
  library.u32(acceleration, tokens.number());
  library.u32(half, tokens.number());
  const damping = tokens.word();
  const kinds = { weight: [0, [weight]], ratio: [1, [ratio]], peaks: [2, [first, second]] };
  library.u32(kind, kinds[damping][0]);
  for (const one of kinds[damping][1]) library.u32(one, damping === 'weight' ? tokens.number() : tokens.hex());
  if (tokens.word() === 'second') {
    library.u32(given, 1);
    library.u32(period, tokens.number());
  }
}

function putAxis(library, tokens) {
  tokens.is('axis');
  const at = library.job + 8 + 96 * tokens.number();
  library.i64(at, tokens.big());
  library.i64(at + 8, tokens.big());
  putLimits(library, tokens, [52, 56, 60, 64, 68, 72, 76, 80, 84, 88].map((offset) => at + offset));
  const moving = tokens.word() === 'moving';
  library.u32(at + 48, moving ? 1 : 0);
  for (const offset of moving ? [16, 24, 32, 40] : [16, 24]) library.i64(at + offset, tokens.big());
}

function putWindows(library, tokens) {
  if (tokens.word() === 'none') return;
  const at = library.job + 584;
  library.u32(at, 1);
  library.u32(at + 4, tokens.number());
  const pairs = tokens.counted(() => [tokens.number(), tokens.number()]);
  library.i64(at + 8, BigInt(pairs.length));
  pairs.slice(0, 32).flat().forEach((tick, i) => library.u32(at + 16 + 4 * i, tick));
}

// Writes the job; gives back the name of the call for it and what the call takes: the words and
// their count, or the job's place.
function putJob(library, tokens, name) {
  if (tokens.word() === 'words') return [name.replace('_job', '_words'), ...putWords(library, tokens)];
  library.clear(library.job, 856);
  library.u32(library.job, tokens.number());
  library.u32(library.job + 4, tokens.number());
  putWindows(library, tokens);
  tokens.counted(() => putAxis(library, tokens));
  return [name, library.job];
}

function putTour(library, tokens) {
  library.clear(library.job, 296);
  library.u32(library.job, tokens.number());
  tokens.counted(() => {
    tokens.is('axis');
    const bit = tokens.number(), at = library.job + 56 + 40 * bit;
    library.i64(library.job + 8 + 8 * bit, tokens.big());
    putLimits(library, tokens, [0, 4, 8, 12, 16, 20, 24, 28, 32, 36].map((offset) => at + offset));
  });
  return tokens.counted((_, i) => {
    tokens.is('stop');
    for (let axis = 0; axis < 6; axis++) library.i64(library.stops + 56 * i + 8 * axis, tokens.big());
    library.u32(library.stops + 56 * i + 48, tokens.number());
  }).length;
}
