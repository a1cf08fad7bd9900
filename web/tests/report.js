import { agrees, MOST_FAULTS, pairAt, pairsIn, readDifference, readFault, readReport, shownReport } from '../report.js';
import { equal, holds } from './harness.js';

const SMALL = 'step 6 points, 1 moved, 8 bytes\nnear 2 faces, 1 pairs\nVF 3 0 1 2\nVF kept 1 struck 5 shared 0 repeated 0\n'
  + 'EE kept 0 struck 9 shared 0 repeated 0\ncovered all pairs\n';

export const tests = [
  ['a report of two frames', () => {
    const report = readReport(SMALL);
    equal(report.step, { points: 6, moved: 1, bytes: 8 });
    equal(report.near, { faces: 2, pairs: 1 });
    equal(report.entries, [{ kind: 'VF', point: 3, face: 0, window: { first: 1, last: 2 } }]);
    equal(report.counts.VF, { kept: 1, struck: 5, shared: 0, repeated: 0, tests: 6 });
    equal(report.counts.EE, { kept: 0, struck: 9, shared: 0, repeated: 0, tests: 9 });
    equal(report.ending, { covered: true, refused: 0 });
    equal([report.unknown, report.faultsInAll, report.difference], [[], 0, null]);
  }],
  ['entries of edges, and of no window', () => {
    const report = readReport('VF 3 0 - -\nVF kept 1 struck 5 shared 0 repeated 0\nEE 1 2 30 4 0 3\nEE kept 1 struck 8 shared 0 repeated 0\n');
    equal(report.entries, [{ kind: 'VF', point: 3, face: 0, window: null }, { kind: 'EE', edges: [[1, 2], [30, 4]], window: { first: 0, last: 3 } }]);
    equal(report.ending, null);
  }],
  ['refused pairs are told one by one and counted', () => {
    const report = readReport('fault 21 offer 0 0\nfault 18 offer 7 0\nVF kept 0 struck 0 shared 0 repeated 0\nEE kept 0 struck 0 shared 0 repeated 0\nrefused 2 pairs\n');
    equal(report.faults, [
      { line: 'fault 21 offer 0 0', number: 21, layer: 'offer', places: [0, 0] },
      { line: 'fault 18 offer 7 0', number: 18, layer: 'offer', places: [7, 0] },
    ]);
    equal([report.faultsInAll, report.ending.refused, report.lastFault.number], [2, 2, 18]);
  }],
  ['of very many faults the first are kept, and the last', () => {
    const report = readReport('fault 21 offer 0 0\n'.repeat(MOST_FAULTS + 5) + 'fault 17 offer 9 0\n');
    equal([report.faults.length, report.faultsInAll, report.lastFault.number], [MOST_FAULTS, MOST_FAULTS + 6, 17]);
  }],
  ['a difference of two frames', () => {
    equal(readReport('the frames have 36 and 35 points\n').difference, { line: 'the frames have 36 and 35 points', of: 'points', first: 36, second: 35 });
    equal(readDifference('the frames have 50 and 49 faces').of, 'faces');
    equal(readDifference('the frames differ in face 49'), { line: 'the frames differ in face 49', of: 'face', face: 49 });
    equal(readDifference('the frames differ'), null);
  }],
  ['what is no line of a report is not understood', () => {
    equal(readReport('VF 1 2 3\n').unknown, ['VF 1 2 3']);
    equal(readReport('covered all pairs \n\n').unknown, ['covered all pairs ', '']);
    equal(readReport('fault 1 field 8\n').unknown, ['fault 1 field 8']);
    equal(readFault('fault x field 8 3'), null);
    equal(readReport('').unknown, []);
  }],
  ['what is read of a run agrees, or not', () => {
    const lines = SMALL.split('\n').slice(0, -1);
    const of = (kind, kept, refused = 0) => agrees({ kind, report: readReport(kept.map((line) => `${line}\n`).join('')), refused: new Uint8Array(4 * refused) });
    const refusing = [...lines.slice(0, 2), 'fault 21 offer 0 0', ...lines.slice(2, 5), 'refused 1 pairs'];
    equal([of('frames', lines), of('plan', lines.slice(2, 5)), of('frames', refusing, 1), of('plan', refusing.slice(2, 6), 1)], [true, true, true, true]);
    equal([of('plan', lines), of('frames', lines.slice(2, 5)), of('frames', lines, 1), of('frames', refusing)], [false, false, false, false]);
    lines.forEach((line, i) => holds(!of('frames', lines.filter((_, other) => other !== i)), `without ${line}`));
    holds(!of('plan', [...lines.slice(2, 5), 'VF 3 0 1 2']) && !of('plan', [...lines.slice(2, 5), 'a line']), 'a line too many');
  }],
  ['a short report is shown whole, a long one with a gap', () => {
    equal(shownReport(SMALL), SMALL);
    const long = 'a line\n'.repeat(1000) + 'the end\n';
    const shown = shownReport(long, 100, 35, 35);
    holds(shown.startsWith('a line\n') && shown.endsWith('a line\nthe end\n'), 'front and back stand');
    const gap = /\[ (\d+) more lines: report.txt has all \]\n/.exec(shown);
    equal(Number(gap[1]) + shown.split('\n').length - 2, 1001, 'the lines in all');
  }],
  ['pairs in bytes', () => {
    const bytes = Uint8Array.of(0, 0, 1, 0, 255, 15, 0, 16, 9);
    equal([pairsIn(bytes), pairAt(bytes, 0), pairAt(bytes, 1)], [2, [0, 1], [4095, 4096]]);
  }],
];
