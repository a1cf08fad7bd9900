// Which of the two modules this browser runs.

// A module with nothing but a memory of 64 bits.
const PROBE = Uint8Array.of(0, 0x61, 0x73, 0x6d, 1, 0, 0, 0, 5, 3, 1, 4, 1);

export function bytesOfBase64(text) {
  return Uint8Array.from(atob(text.trim()), (letter) => letter.charCodeAt(0));
}

export function has64(validate = (bytes) => WebAssembly.validate(bytes)) {
  try { return validate(PROBE); } catch { return false; }
}

// The modules to try, in order: the one of 64 bits where the browser can, then the one of 32 where it is given.
export function modulesToTry({ can64, only32, given64, given32 }) {
  const tries = [];
  if (can64 && !only32 && given64) tries.push(64);
  if (given32) tries.push(32);
  return tries;
}

// Why none of them runs.
export function whyNone({ hasWasm, can64, error }) {
  if (!hasWasm) return 'This browser cannot run the inspection: WebAssembly is not there, or is switched off.';
  if (!can64) {
    return 'This browser cannot run the inspection: it needs WebAssembly with 64-bit memory. '
      + 'Chrome and Edge have it from version 133, Firefox from version 134.';
  }
  return `The module in this page cannot be run, so the page may be damaged: get it again. (${error})`;
}
