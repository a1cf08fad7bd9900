// What a test says.

const shown = (value) => JSON.stringify(value, (_, v) => (ArrayBuffer.isView(v) ? [...v] : typeof v === 'bigint' ? String(v) : v));

export function equal(got, wanted, what = 'it') {
  if (shown(got) !== shown(wanted)) throw new Error(`${what} is ${shown(got)} and not ${shown(wanted)}`);
}

export function holds(condition, what) {
  if (!condition) throw new Error(`it does not hold: ${what}`);
}

export function close(got, wanted, what = 'it', by = 1e-9) {
  const all = [got, wanted].map((x) => (Array.isArray(x) ? x : [x]));
  holds(all[0].length === all[1].length && all[0].every((x, i) => Math.abs(x - all[1][i]) <= by), `${what}: ${shown(got)} is close to ${shown(wanted)}`);
}

// A test of the module, which is given its bytes. Where there is no module it says so, and passes.
export const inModule = (test) => async () => (globalThis.moduleBytes ? test(await globalThis.moduleBytes()) : 'not tried, since no module is given');

export const textBytes = (text) => new TextEncoder().encode(text);
