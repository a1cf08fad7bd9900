// node web/tests/run.js [MODULE.wasm]: runs the tests of the modules; the last line tells how many passed and failed.
import { readdirSync, readFileSync } from 'node:fs';

const here = new URL('.', import.meta.url);
const module = process.argv[2];
if (module && module.endsWith('.wasm')) globalThis.moduleBytes = async () => new Uint8Array(readFileSync(module));

let passed = 0, failed = 0;

async function attempt(name, test) {
  try {
    const said = await test();
    passed += 1;
    if (said) console.log(`${name}: ${said}`);
  } catch (error) {
    failed += 1;
    console.log(`failed: ${name}: ${error.stack}`);
  }
}

for (const file of readdirSync(here).sort()) {
  if (!file.endsWith('.js') || ['run.js', 'harness.js'].includes(file)) continue;
  const { tests } = await import(new URL(file, here));
  for (const [name, test] of tests) await attempt(`${file}: ${name}`, test);
}

// All modules can be joined into one script.
await attempt('the names at the top of the modules differ', () => {
  const owners = new Map();
  const web = new URL('../', here);
  for (const file of readdirSync(web).filter((name) => name.endsWith('.js'))) {
    for (const [, name] of readFileSync(new URL(file, web), 'utf8').matchAll(/^(?:export )?(?:const|let|async function|function|class) ([\w$]+)/gm)) {
      if (owners.has(name)) throw new Error(`${name} is in ${owners.get(name)} and in ${file}`);
      owners.set(name, file);
    }
  }
});

console.log(`${passed} passed, ${failed} failed`);
process.exitCode = failed ? 1 : 0;
