import { entryWords, middleOf, partOf, pictureWords, timeWords, conclusionOf, whereWords, windowWords } from '../words.js';
import { equal, holds } from './harness.js';

const frames = { whole: true, faces: 200, offered: 1667, refused: 0, refusedWords: 'So many were refused.', listed: 0, source: 'the plan' };
const plan = { ...frames, whole: false, source: 'pairs.bin' };
const of = (grounds) => conclusionOf(grounds);
const VF = { kind: 'VF', point: 3, face: 0, window: { first: 1, last: 2 } };
const EE = { kind: 'EE', edges: [[1, 2], [3, 4]], window: { first: 3, last: 3 } };

export const tests = [
  ['of two frames with nothing listed', () => {
    equal(of(frames).main, 'Nothing is listed: of every two faces of the sheet, whatever has no point in common stays apart at every fraction of the step.');
    equal(of(frames).more, []);
    equal(of(frames).notes, ['Nothing is said of film that passes through film already in the first frame.']);
  }],
  ['of two frames with tests listed', () => {
    equal(of({ ...frames, listed: 1 }).main,
      '1 test is listed, where film may touch or not: of every two faces of the sheet, whatever has no point in common and is not listed stays apart at every fraction of the step.');
    holds(of({ ...frames, listed: 38 }).main.startsWith('38 tests are listed'), 'many');
  }],
  ['where pairs were refused the claim leaves them out', () => {
    const one = of({ ...frames, refused: 1 }), many = of({ ...frames, refused: 1200, listed: 5 });
    holds(one.main.includes('of every two faces of the sheet but the refused pair, whatever'), one.main);
    equal(one.more, ['So many were refused.']);
    holds(many.main.includes('of every two faces of the sheet but the refused pairs, whatever'), many.main);
  }],
  ['of a plan the claim is of its pairs alone', () => {
    equal(of(plan).main, 'Nothing is listed: of each of the 1,667 pairs of pairs.bin, whatever has no point in common stays apart at every fraction of the step.');
    holds(of({ ...plan, offered: 1 }).main.includes('of the one pair of pairs.bin'), 'one pair');
    holds(of({ ...plan, refused: 2, listed: 1 }).main.includes('of each pair of pairs.bin that was not refused, whatever'), 'refused');
    equal(of(plan).notes[0], 'Of pairs that were not offered nothing is said here.');
    equal(of({ ...plan, again: true }).notes[0], 'What the run before says of its other pairs stays.');
  }],
  ['where nothing can be said, nothing is', () => {
    equal(of({ ...plan, offered: 0 }).main, 'No pair was offered, so nothing is said.');
    equal(of({ ...plan, offered: 3, refused: 3 }).main, 'Every pair was refused, so nothing is said.');
    equal(of({ ...frames, faces: 1, offered: 0 }).main, 'The sheet has no two faces, so there was nothing to inspect.');
    holds(of({ ...frames, offered: 0 }).main.includes('of every two faces'), 'a sheet of far faces is covered');
  }],
  ['no conclusion promises more', () => {
    for (const whole of [true, false]) for (const refused of [0, 1, 9]) for (const listed of [0, 1, 9]) for (const offered of [0, 9, 10]) {
      const { main, more, notes } = of({ ...frames, whole, refused: Math.min(refused, offered), listed, offered, source: 'pairs.bin' });
      const text = [main, ...more, ...notes].join(' ');
      holds(!/safe|collision|no touch|never|guarantee/i.test(text), text);
      holds(refused === 0 || offered === 0 || text.includes('refused'), text);
      holds(listed === 0 || main.includes('not listed') || main.includes('nothing is said'), text);
      holds([main, ...more, ...notes].every((sentence) => sentence.endsWith('.')), text);
    }
  }],
  ['an entry and its window', () => {
    equal([entryWords(VF), windowWords(VF), middleOf(VF)], ['Point 3 and face 0', 'parts 1 to 2', 0.5]);
    equal([entryWords(EE), windowWords(EE), middleOf(EE)], ['Edge 1\u20132 and edge 3\u20134', 'part 3', 0.875]);
    equal([windowWords({ window: null }), middleOf({ window: null })], ['no part any more', null]);
  }],
  ['where in the step', () => {
    equal([0, 0.249, 0.25, 0.75, 1].map(partOf), [0, 0, 1, 3, 3]);
    equal(whereWords(0.375), '0.375 of the step, part 1');
    equal([timeWords(0.2), timeWords(999.4), timeWords(1234)], ['1 ms', '999 ms', '1.2 s']);
  }],
  ['the picture in words', () => {
    equal(pictureWords({ points: 0, faces: 0, fraction: 0, vf: 0, ee: 0, chosen: null }), 'No film yet.');
    equal(pictureWords({ points: 6, faces: 2, fraction: 0.5, vf: 1, ee: 0, chosen: VF }),
      'The film in three dimensions, 6 points and 2 faces, at 0.500 of the step, part 2. Marked are 1 point with its face. In the middle: point 3 and face 0, which may touch in parts 1 to 2.');
  }],
];
