import { bytesOfBase64, has64, modulesToTry, whyNone } from '../modules.js';
import { equal, holds } from './harness.js';

const all = { can64: true, only32: false, given64: true, given32: true };

export const tests = [
  ['which modules are tried', () => {
    equal(modulesToTry(all), [64, 32]);
    equal(modulesToTry({ ...all, can64: false }), [32]);
    equal(modulesToTry({ ...all, only32: true }), [32]);
    equal(modulesToTry({ ...all, given32: false }), [64]);
    equal(modulesToTry({ ...all, can64: false, given32: false }), []);
  }],
  ['why none runs', () => {
    holds(whyNone({ hasWasm: false, can64: false, error: '' }).includes('WebAssembly is not there'), 'no WebAssembly');
    holds(whyNone({ hasWasm: true, can64: false, error: '' }).includes('version 133'), 'no 64-bit memory');
    holds(whyNone({ hasWasm: true, can64: true, error: 'bad' }).includes('damaged'), 'a damaged module');
  }],
  ['whether a browser has memories of 64 bits', () => {
    equal(has64(() => false), false);
    equal(has64(() => { throw new Error('none'); }), false);
    equal(has64((bytes) => bytes[11] === 4), true);
  }],
  ['bytes of base64', () => equal(bytesOfBase64('AAEC/w==\n'), Uint8Array.of(0, 1, 2, 255))],
];
