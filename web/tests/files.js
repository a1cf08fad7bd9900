import { inOrder, partsOf, readLimit, sortFiles, swapped, takenAs, WANTED } from '../files.js';
import { equal, holds } from './harness.js';

const files = (...names) => names.map((name) => ({ name, bytes: new Uint8Array(0) }));
const order = (a, b) => { const { start, end, by } = inOrder(...files(a, b)); return [start.name, end.name, by]; };
const both = (a, b, by) => { equal(order(a, b), [a, b, by]); equal(order(b, a), [a, b, by]); };
const kindOf = (...names) => sortFiles(files(...names));
const nameOf = (file) => (file ? file.name : null);

export const tests = [
  ['the parts of a name', () => {
    equal(partsOf('foldStart_07.OBJ'), ['fold', 'start', 7]);
    equal(partsOf('12.obj'), [12]);
  }],
  ['which frame is the first, by names', () => {
    both('START.obj', 'END.obj', 'names');
    both('before.obj', 'after.obj', 'names');
    both('sheet.obj', 'next.obj', 'names');
    both('zBegin.obj', 'a.obj', 'names');
    both('z.obj', 'a-end.obj', 'names');
    both('fold_start.obj', 'fold_end.obj', 'names');
  }],
  ['which frame is the first, by their order', () => {
    both('frame9.obj', 'frame10.obj', 'order');
    both('0.obj', '1.obj', 'order');
    both('a.obj', 'b.obj', 'order');
    both('fold.obj', 'fold2.obj', 'order');
    both('restart.obj', 'tend.obj', 'order');
    both('start1.obj', 'start2.obj', 'order');
  }],
  ['two frames, and what is not used', () => {
    const sorted = kindOf('END.OBJ', 'notes.txt', 'START.obj');
    equal([sorted.kind, sorted.start.name, sorted.end.name, sorted.unused.map(nameOf)], ['frames', 'START.obj', 'END.OBJ', ['notes.txt']]);
    equal(takenAs(sorted), 'First frame: START.obj. Second frame: END.OBJ (by their names). Not used: notes.txt.');
    const other = swapped(sorted);
    equal([other.start.name, other.end.name, other.by], ['END.OBJ', 'START.obj', 'swapped']);
  }],
  ['a plan, with its pairs or without', () => {
    const all = kindOf('report.txt', 'Sheet.obj', 'next.obj', 'STEP.bin', 'pairs.bin');
    equal([all.kind, nameOf(all.sheet), nameOf(all.step), nameOf(all.pairs), all.unused.map(nameOf)], ['plan', 'Sheet.obj', 'STEP.bin', 'pairs.bin', ['report.txt', 'next.obj']]);
    const two = kindOf('film.obj', 'step.bin');
    equal([two.kind, nameOf(two.sheet), two.pairs], ['plan', 'film.obj', null]);
    holds(takenAs(two).includes('the near ones are found here'), 'that the pairs are found is told');
    equal(nameOf(kindOf('sheet.obj', 'step.bin', 'refused.bin').pairs), 'refused.bin');
    equal(nameOf(kindOf('sheet.obj', 'step.bin', 'refused.bin', 'pairs.bin').pairs), 'pairs.bin');
    equal(nameOf(kindOf('folder/sheet.obj', 'folder/step.bin').sheet), 'folder/sheet.obj');
  }],
  ['what is not understood', () => {
    for (const names of [[], ['a.obj'], ['a.obj', 'b.obj', 'c.obj'], ['a.txt'], ['step.bin'], ['a.obj', 'b.obj', 'step.bin'],
      ['a/step.bin', 'b/step.bin', 'sheet.obj'], ['sheet.obj', 'step.bin', 'a/pairs.bin', 'b/pairs.bin'], ['a', 'b', 'c', 'd', 'e', 'f']]) {
      const sorted = kindOf(...names);
      equal(sorted.kind, 'wrong', names.join());
      holds(sorted.why.endsWith(WANTED) && sorted.why.length > WANTED.length + 10, `${sorted.why} says what is wanted`);
    }
    equal(kindOf('a.obj', 'b.obj', 'c.obj').why, `Three OBJ files were given: a.obj, b.obj and c.obj. ${WANTED}`);
  }],
  ['how much is read', () => {
    equal([readLimit('a.OBJ'), readLimit('x/step.bin'), readLimit('film.mp4')], [65537, 14337, 0]);
    holds([readLimit('pairs.bin'), readLimit('refused.bin')].every((limit) => limit === Infinity), 'pairs are read to their end');
  }],
];
