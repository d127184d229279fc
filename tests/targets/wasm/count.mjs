// Prints how many WebAssembly instructions polgamir.wasm executes to plan a job from words:
//
//     node count.mjs WASM JOB
//
// The module is written anew with a counter: each run of instructions up to one that may
// branch adds its length. Marks of structure (block, loop, else, end) do not count, and a
// copy of memory is one instruction.
import { readFileSync } from 'node:fs';

const [wasm, job] = process.argv.slice(2).map((name) => readFileSync(name));

function encoded(number) { // unsigned LEB128
  const bytes = [];
  for (let left = number; bytes.length === 0
       || left > 0; left = Math.floor(left / 128)) bytes.push(left % 128 + (left >= 128 ? 128 : 0));
  return bytes;
}

class Reader {
  constructor(bytes) { this.bytes = bytes; this.at = 0; }
  byte() { return this.bytes[this.at++]; }
  number() {
    let sum = 0;
    for (let scale = 1, more = true; more; scale *= 128) {
      const byte = this.byte();
      sum += (byte & 127) * scale;
      more = byte >= 128;
    }
    return sum;
  }
  take(count) { this.at += count; return this.bytes.subarray(this.at - count, this.at); }
}

// What stands after an opcode: how many numbers, or bytes.
function skip(code, opcode) {
  if (opcode === 0x0E) for (let left = code.number() + 1; left > 0; left--) code.number();
  else if (opcode === 0x1C) code.take(code.number());
  else if (opcode === 0x43) code.take(4);
  else if (opcode === 0x44) code.take(8);
  else if (opcode === 0xFC) for (let left = { 8: 2, 9: 1, 10: 2, 11: 1 }[code.number()] ?? 0; left > 0;
                                 left--) code.number();
  else if (opcode === 0x11 || (opcode >= 0x28 && opcode <= 0x3E)) { code.number(); code.number(); }
  else if ([0x02, 0x03, 0x04, 0x0C, 0x0D, 0x10, 0x3F, 0x40, 0x41, 0x42].includes(opcode)
           || (opcode >= 0x20 && opcode <= 0x24)) code.number();
  else if (opcode > 0xC4) throw new Error(`opcode ${opcode}`);
}

const STRUCTURE = new Set([0x02, 0x03, 0x05, 0x0B]);
const ENDS_A_RUN = new Set([0x00, 0x02, 0x03, 0x04, 0x05, 0x0B, 0x0C, 0x0D, 0x0E, 0x0F, 0x10, 0x11]);

// The instructions of a function, each run with `counter += length` before it.
function counted(body, counter) {
  const code = new Reader(body), out = [];
  for (let locals = code.number(); locals > 0; locals--) { code.number(); code.byte(); }
  out.push(...body.subarray(0, code.at));
  let run = [], length = 0;
  while (code.at < body.length) {
    const begun = code.at, opcode = code.byte();
    skip(code, opcode);
    run.push(...body.subarray(begun, code.at));
    if (!STRUCTURE.has(opcode)) length++;
    if (ENDS_A_RUN.has(opcode)) {
      // i64.const takes a signed number: a last byte below 64 keeps it above 0
      const signed = encoded(length);
      if (signed.at(-1) >= 64) signed.push(signed.pop() + 128, 0);
      if (length > 0) out.push(0x23, ...encoded(counter), 0x42, ...signed, 0x7C, 0x24, ...encoded(counter));
      out.push(...run);
      run = [];
      length = 0;
    }
  }
  return out;
}

// The module with one more global, exported as `counter`.
function withCounter(bytes) {
  const module = new Reader(bytes), out = [...module.take(8)];
  let counter = 0;
  while (module.at < bytes.length) {
    const id = module.byte(), section = new Reader(module.take(module.number()));
    let content = section.bytes;
    if (id === 6) {
      counter = section.number();
      content = [...encoded(counter + 1), ...section.bytes.subarray(section.at), 0x7E, 1, 0x42, 0, 0x0B];
    } else if (id === 7) {
      const name = [...Buffer.from('counter')];
      content = [...encoded(section.number() + 1), ...section.bytes.subarray(section.at), name.length, ...name, 3,
                 ...encoded(counter)];
    } else if (id === 10) {
      const bodies = Array.from({ length: section.number() }, () => counted(section.take(section.number()), counter));
      content = [encoded(bodies.length), ...bodies.map((body) => [...encoded(body.length), ...body])].flat();
    }
    out.push(id, ...encoded(content.length));
    for (const byte of content) out.push(byte);
  }
  return Uint8Array.from(out);
}

const { instance } = await WebAssembly.instantiate(withCounter(wasm), {});
const calls = instance.exports, memory = new DataView(calls.memory.buffer);
const answer = calls.__heap_base.value, words = answer + 64, table = words + 1024;
job.forEach((byte, i) => memory.setUint8(words + i, byte));
calls.polgamir_plan_words(answer, words, job.length / 4, table, 73746);
console.log(String(calls.counter.value));
