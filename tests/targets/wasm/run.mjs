// Runs the stored vectors with polgamir.wasm:
//
//     node run.mjs WASM VERSION FILE..              # in node
//     node run.mjs --page WASM VERSION FILE..       # prints a page that does the same
//                                                   in a browser, with nothing fetched
//
// FILE is a file of vectors, or a job (NAME.job), whose text stands beside it.
import { readFileSync } from 'node:fs';
import vm from 'node:vm';

const page = process.argv[2] === '--page';
const [wasmFile, version, ...files] = process.argv.slice(page ? 3 : 2);
const wasm = readFileSync(wasmFile);
const vectors = files.filter((name) => name.endsWith('.txt')).map((name) => readFileSync(name, 'utf8'));
const jobs = files.filter((name) => name.endsWith('.job'))
  .map((name) => [name, [...readFileSync(name)], readFileSync(name.replace(/job$/, 'txt'), 'utf8')]);
const source = ['calls.js', 'cases.js'].map((name) => readFileSync(new URL(name, import.meta.url), 'utf8')).join('\n');

if (page) {
  const bytes = `Uint8Array.from(atob(${JSON.stringify(wasm.toString('base64'))}), (letter) => letter.charCodeAt(0))`;
  const data = [version, JSON.stringify(vectors), JSON.stringify(jobs)].join(', ').replaceAll('<', '\\u003c');
  process.stdout.write(`<!doctype html><meta charset="utf-8"><title>Stored vectors</title><pre>not run</pre><script>
${source}
const say = (text) => { document.querySelector('pre').textContent = text; };
runAll(${bytes}, ${data}).then((done) => say(done.said.join('\\n')), say);
</script>\n`);
} else {
  const runAll = vm.runInThisContext(`${source}\nrunAll`);
  const done = await runAll(wasm, Number(version), vectors, jobs);
  console.log(done.said.join('\n'));
  process.exitCode = done.failures.length === 0 ? 0 : 1;
}
