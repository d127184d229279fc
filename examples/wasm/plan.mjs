// Plans one unit in four ticks (case C) with polgamir.wasm, and prints its rows as the table
// program does:
//
//     tools/library --target wasm32
//     node examples/wasm/plan.mjs
import { readFileSync } from 'node:fs';

const bytes = readFileSync(process.argv[2] ?? new URL('../../target/lib/wasm32/polgamir.wasm', import.meta.url));
const { instance } = await WebAssembly.instantiate(bytes, {});
const calls = instance.exports;
const memory = new DataView(calls.memory.buffer);

// The memory is the caller's from __heap_base on. Structs are 8-byte aligned;
// bindings/c/layout.h has the place of every field.
const answer = calls.__heap_base.value, job = answer + 24, axis = job + 8, table = job + 856;
memory.setUint32(job, 1, true);          // mask: axis 0 alone
memory.setUint32(job + 4, 4, true);      // asked: tick 4
memory.setBigInt64(axis + 16, 1n, true); // target_position
memory.setUint32(axis + 52, 10, true);   // speed_limit
memory.setUint32(axis + 56, 1, true);    // acceleration_limit
memory.setUint32(axis + 68, 128, true);  // second_weight

calls.polgamir_plan_job(answer, job, table, 73746);
const number = memory.getUint32(answer, true), arrival = memory.getUint32(answer + 16, true);

if (number !== 0) {
  console.log(`refused ${number}`);
} else {
  console.log(`arrival ${arrival}`);
  for (let tick = 0; tick <= arrival; tick++) {
    console.log([tick, ...[0, 8, 16].map((cell) => memory.getBigInt64(table + 24 * tick + cell, true))].join(' '));
  }
}
