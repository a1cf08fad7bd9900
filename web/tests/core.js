// The lending of bytes, with a module that is none: a memory, and calls that read and write it as the module does.
import { coreOf, FIRST_PAGE, makeCore } from '../core.js';
import { runJob } from '../works.js';
import { equal, holds, inModule, textBytes } from './harness.js';

function pretended(calls, grow) {
  const memory = {
    buffer: new ArrayBuffer(65536),
    grow(by) {
      if (typeof by !== grow) throw new TypeError('not that kind of number');
      const more = new ArrayBuffer(memory.buffer.byteLength + Number(by) * 65536);
      new Uint8Array(more).set(new Uint8Array(memory.buffer));
      memory.buffer = more;
    },
  };
  const read = (p, n) => new Uint8Array(memory.buffer, Number(p), Number(n)).slice();
  const write = (p, bytes) => new Uint8Array(memory.buffer).set(bytes, Number(p));
  const answer = (p, code, first, second) => {
    holds(Number(p) % 16 === 0 && Number(p) >= 1024, 'the result is aligned and above the base');
    const told = new DataView(memory.buffer, Number(p));
    told.setUint32(0, code, true);
    told.setBigUint64(8, BigInt(first), true);
    told.setBigUint64(16, BigInt(second), true);
  };
  return { memory, __heap_base: { value: 1024n }, page_room: () => 70000n, ...calls({ read, write, answer, memory }) };
}

const A = Uint8Array.of(1, 2, 3), B = Uint8Array.of(4, 5, 6, 7, 8), C = Uint8Array.of(0, 0, 1, 0, 0, 0, 2, 0);

export const tests = [
  ['what is lent arrives, also in a memory of 32 bits', () => {
    for (const grow of ['bigint', 'number']) {
      const core = coreOf(pretended(({ read, write, answer }) => ({
        page_inspect(result, s, sn, t, tn, p, pn, page, size, refused, rn) {
          equal([read(s, sn), read(t, tn), read(p, pn), size, rn], [A, B, C, BigInt(FIRST_PAGE + 48), 8n]);
          for (const place of [s, t, p, page, refused]) holds(Number(place) % 16 === 0, 'an area is aligned');
          write(page, textBytes('text'));
          write(refused, C.slice(4));
          answer(result, 0, 4, 4);
        },
      }), grow));
      equal(core.inspect(A, B, C), { code: 0, text: 'text', refused: C.slice(4) });
    }
  }],
  ['where the page is too short, a longer one is lent', () => {
    const text = 'fault 21 offer 0 0\n'.repeat(100000);
    const sizes = [];
    const core = coreOf(pretended(({ read, write, answer, memory }) => ({
      page_frames(result, room, s, sn, e, en, page, size, refused, rn) {
        sizes.push(Number(size));
        if (rn > 0n) write(refused, C.slice(4));
        holds(Number(s) - Number(room) >= 70000, 'the room is as large as it is to be');
        write(page, textBytes(text).subarray(0, Number(size)));
        holds(Number(page) + Number(size) <= memory.buffer.byteLength, 'the page lies in the memory');
        answer(result, 1, 100000, text.length);
      },
    }), 'bigint'));
    const told = core.frames(A, B);
    equal([told.code, told.refused, told.text === text, sizes], [1, 100000, true, [FIRST_PAGE, text.length]]);
    equal(told.refusedPairs.length, 0, 'no room is lent for pairs that are not known');
    const known = core.frames(A, B, 100000);
    equal([known.text === text, sizes.length], [true, 3], 'where the pairs are known, one call is enough');
    equal([known.refusedPairs.length, known.refusedPairs.slice(0, 4)], [400000, C.slice(4)]);
  }],
  ['a record, or none', () => {
    const core = coreOf(pretended(({ read, write, answer }) => ({
      page_record(result, s, sn, e, en, record, rn, line, ln) {
        equal([rn, ln], [14336n, 74n]);
        write(record, B);
        write(line, textBytes('a line\n'));
        answer(result, read(s, sn)[0] === 1 ? 0 : 2, 5, 7);
      },
    }), 'bigint'));
    equal(core.record(A, B), { code: 0, line: 'a line\n', step: B });
    equal(core.record(B, B), { code: 2, line: 'a line\n', step: null });
  }],
  ['the tables of a plan', () => {
    const core = coreOf(pretended(({ write, answer }) => ({
      page_sheet(result, s, sn, t, tn, points, pn, faces, fn) {
        equal([pn, fn], [2048n, 4096n]);
        write(points, new Uint8Array(Int16Array.of(1, -2, 3, 4, 5, -6).buffer));
        write(faces, new Uint8Array(Uint16Array.of(7, 8, 4095).buffer));
        answer(result, 0, 1, 1);
      },
    }), 'bigint'));
    const { points, faces } = core.sheet(A, B);
    equal([points, faces], [Int16Array.of(1, -2, 3, 4, 5, -6), Uint16Array.of(7, 8, 4095)]);
  }],
  ['words', () => {
    const core = coreOf(pretended(({ read, write }) => ({
      page_words(number, first, second, line, size, words, room) {
        equal([number, first, second, read(line, size), room], [11, 2, 1, A, 512n]);
        holds(Number(words) >= Number(line) + 3, 'the room lies behind the line');
        write(words, textBytes('Words.'));
        return 6n;
      },
      page_refused_words(count, words, room) {
        equal([count, room], [3n, 512n]);
        write(words, textBytes('\u2212'));
        return 3n;
      },
    }), 'bigint'));
    equal([core.words({ number: 11, places: [2, 1] }, A), core.refusedWords(3)], ['Words.', '\u2212']);
  }],
  ['the small step, in the module itself', inModule(async (bytes) => {
    const core = await makeCore(bytes);
    const start = textBytes('v 0 0 0\nv 4 0 0\nv 0 4 0\nv 1 1 1\nv 1 1 9\nv 2 1 9\nf 1 2 3\nf 4 5 6\n');
    const end = textBytes('v 0 0 0\nv 4 0 0\nv 0 4 0\nv 1 1 -1\nv 1 1 9\nv 2 1 9\nf 1 2 3\nf 4 5 6\n');
    const doings = [];
    const result = runJob(core, { kind: 'frames', start, end }, (told) => doings.push(told));
    equal(result.text, 'step 6 points, 1 moved, 8 bytes\nnear 2 faces, 1 pairs\nVF 3 0 1 2\nVF kept 1 struck 5 shared 0 repeated 0\n'
      + 'EE kept 0 struck 9 shared 0 repeated 0\ncovered all pairs\n');
    equal([result.outcome, result.step, result.pairs, result.refused.length], ['covered', Uint8Array.of(0, 0, 0, 4, 254, 255, 0, 0), Uint8Array.of(0, 0, 1, 0), 0]);
    const { film } = doings.find((told) => told.film);
    equal([film.points.length, [...film.points.slice(18, 24)], [...film.faces]], [36, [1, 1, 1, 1, 1, -1], [0, 1, 2, 3, 4, 5]]);
    const plan = runJob(core, { kind: 'plan', sheet: start, step: result.step, pairs: Uint8Array.of(1, 0, 1, 0, 0, 0, 1, 0) }, () => {});
    equal([plan.outcome, plan.refused, plan.report.faults[0].number, plan.found], ['refused', Uint8Array.of(1, 0, 1, 0), 18, false]);
    const found = runJob(core, { kind: 'plan', sheet: start, step: result.step, pairs: null }, () => {});
    equal([found.outcome, found.pairs, found.found, found.report.entries.length], ['covered', Uint8Array.of(0, 0, 1, 0), true, 1]);
    const bad = runJob(core, { kind: 'frames', start, end: textBytes('v 0 0 x\n') }, () => {});
    equal([bad.outcome, bad.text], ['second fault', 'fault 1 field 1 3\n']);
    holds(bad.report.lastFault.words.includes('\u201cx\u201d'), bad.report.lastFault.words);
    equal([plan.report.faults[0].words, plan.refusedWords], ['Both faces of the pair are face 1.', '1 pair was refused. Of it nothing is said.']);
  })],
];
