// The work of a run, over calls that only pretend.
import { runJob } from '../works.js';
import { equal, holds } from './harness.js';

const counts = 'VF kept 0 struck 6 shared 0 repeated 0\nEE kept 0 struck 9 shared 0 repeated 0\n';
const S = Uint8Array.of(1), E = Uint8Array.of(2, 3), STEP = Uint8Array.of(3), PAIRS = Uint8Array.of(0, 0, 1, 0, 0, 0, 2, 0);
const film = { code: 0, points: new Int16Array(6), faces: new Uint16Array(3) };

function calls(over = {}) {
  const asked = [];
  const core = {
    record: () => ({ code: 0, line: 'step 1 points, 0 moved, 1 bytes\n', step: STEP }),
    near: () => ({ code: 0, line: 'near 3 faces, 2 pairs\n', pairs: PAIRS }),
    frames: () => ({ code: 0, refused: 0, refusedPairs: new Uint8Array(0), text: `step 1 points, 0 moved, 1 bytes\nnear 3 faces, 2 pairs\n${counts}covered all pairs\n` }),
    inspect: () => ({ code: 0, text: counts, refused: new Uint8Array(0) }),
    sheet: () => film,
    words: ({ number }, line) => `Fault ${number} in ${line.length} bytes.`,
    refusedWords: (count) => `${count} refused.`,
    ...over,
  };
  const watched = Object.fromEntries(Object.entries(core).map(([name, call]) => [name, (...areas) => { asked.push([name, ...areas]); return call(...areas); }]));
  return { core: watched, asked };
}

const run = (job, over) => {
  const { core, asked } = calls(over);
  const doings = [];
  const result = runJob(core, job, (told) => doings.push(told.doing));
  return { result, doings, asked: asked.map(([name]) => name) };
};
const frames = { kind: 'frames', start: S, end: E };
const plan = { kind: 'plan', sheet: S, step: STEP, pairs: PAIRS };

export const tests = [
  ['two frames', () => {
    const { result, asked, doings } = run(frames);
    equal(asked, ['record', 'sheet', 'near', 'frames']);
    equal([result.outcome, result.step, result.pairs, result.found], ['covered', STEP, PAIRS, true]);
    holds(doings.some((line) => line.startsWith('Step 1 points')) && doings.some((line) => line.startsWith('2 near pairs')), doings.join());
  }],
  ['two frames of which pairs are refused: the run tells which', () => {
    const text = `fault 21 offer 0 0\n${counts}refused 1 pairs\n`;
    const { result, asked } = run(frames, { frames: () => ({ code: 1, refused: 1, refusedPairs: PAIRS.slice(4), text }) });
    equal([result.outcome, result.refused, asked], ['refused', PAIRS.slice(4), ['record', 'sheet', 'near', 'frames', 'words', 'refusedWords']]);
    equal([result.report.faults[0].words, result.refusedWords], ['Fault 21 in 0 bytes.', '1 refused.']);
    let failed = false;
    try { run(frames, { frames: () => ({ code: 1, refused: 2, refusedPairs: PAIRS.slice(4), text }) }); } catch { failed = true; }
    holds(failed, 'a count that the pairs do not have ends the run');
  }],
  ['frames with a fault, that differ, or with too many pairs', () => {
    for (const [code, outcome] of [[3, 'first fault'], [4, 'second fault'], [5, 'differ']]) {
      const { result, asked } = run(frames, { record: () => ({ code: code - 2, line: 'x\n', step: null }), frames: () => ({ code, refused: 0, refusedPairs: new Uint8Array(0), text: 'fault 1 field 1 3\n' }) });
      equal([result.outcome, result.step, result.pairs, asked], [outcome, null, null, ['record', 'frames', 'words']]);
      equal(result.report.lastFault.words, `Fault 1 in ${outcome === 'second fault' ? 2 : 1} bytes.`);
    }
    const { result } = run(frames, { near: () => ({ code: 1, line: 'fault 25 search 0 0\n', pairs: null }), frames: () => ({ code: 2, refused: 0, refusedPairs: new Uint8Array(0), text: 'fault 25 search 0 0\n' }) });
    equal([result.outcome, result.step, result.pairs], ['search fault', STEP, null]);
  }],
  ['a plan with its pairs', () => {
    const { result, asked } = run(plan);
    equal([result.outcome, result.pairs, result.found, asked], ['covered', PAIRS, false, ['sheet', 'inspect']]);
    equal(run(plan, { inspect: () => ({ code: 0, text: counts, refused: PAIRS }) }).result.outcome, 'refused');
  }],
  ['a plan without pairs: they are found', () => {
    const { result, asked } = run({ ...plan, pairs: null });
    equal([result.outcome, result.pairs, result.found, asked], ['covered', PAIRS, true, ['sheet', 'near', 'inspect']]);
    const over = run({ ...plan, pairs: null }, { near: () => ({ code: 1, line: 'fault 25 search 0 0\n', pairs: null }) });
    equal([over.result.outcome, over.result.text, over.asked], ['fault', 'fault 25 search 0 0\n', ['sheet', 'near', 'words']]);
  }],
  ['a plan with no pair in pairs.bin is inspected with none', () => {
    const { result, asked } = run({ ...plan, pairs: new Uint8Array(0) });
    equal([result.pairs.length, result.found, asked], [0, false, ['sheet', 'inspect']]);
  }],
  ['a plan with a fault', () => {
    const over = { sheet: () => ({ ...film, code: 1 }), inspect: () => ({ code: 1, text: 'fault 1 field 1 1\n', refused: new Uint8Array(0) }) };
    for (const pairs of [PAIRS, null]) {
      const { result, asked } = run({ ...plan, pairs }, over);
      equal([result.outcome, result.text, asked], ['fault', 'fault 1 field 1 1\n', ['sheet', 'inspect', 'words']]);
    }
  }],
];
