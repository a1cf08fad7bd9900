import { DOT_ROW, edgesOf, FILM_ROW, filmRows, joinedRanges, markRows, STRIP_ROW } from '../buffers.js';
import { equal } from './harness.js';

const POINTS = Int16Array.from({ length: 4 * 6 }, (_, i) => i);
const FACES = Uint16Array.of(0, 1, 2, 2, 1, 3);
const film = { points: POINTS, faces: FACES };
const VF = { kind: 'VF', point: 3, face: 0 };
const EE = { kind: 'EE', edges: [[0, 1], [2, 3]] };

export const tests = [
  ['each corner of a face stands first once', () => {
    const rows = filmRows(film);
    equal(rows.length, 6 * FILM_ROW);
    const firsts = [0, 1, 2, 3, 4, 5].map((row) => [0, 6, 12].map((at) => rows[row * FILM_ROW + at] / 6));
    equal(firsts, [[0, 1, 2], [1, 2, 0], [2, 0, 1], [2, 1, 3], [1, 3, 2], [3, 2, 1]]);
    equal([...rows.slice(0, 6)], [0, 1, 2, 3, 4, 5]);
  }],
  ['each edge stands once', () => {
    const edges = edgesOf(FACES);
    equal(edges.length, 10);
    const names = [];
    for (let i = 0; i < edges.length; i += 2) names.push(`${edges[i]}-${edges[i + 1]}`);
    equal(names.sort(), ['0-1', '0-2', '1-2', '1-3', '2-3']);
    equal(edgesOf(new Uint16Array(0)).length, 0);
  }],
  ['the marks of the entries, and where they stand', () => {
    const marks = markRows(film, [VF, EE]);
    equal(marks.ranges, [
      { kind: 'VF', strips: [0, 18], dots: [0, 6], patches: [0, 3] },
      { kind: 'EE', strips: [18, 30], dots: [6, 6], patches: [3, 3] },
    ]);
    equal([marks.strips.length, marks.dots.length, marks.patches.length], [30 * STRIP_ROW, 6 * DOT_ROW, 18]);
    equal(marks.dots[0], 18, 'the point of the dot');
    equal(marks.patches[6], 6, 'the second corner of the patch');
  }],
  ['successive entries of one kind are one range', () => {
    const { ranges } = markRows(film, [VF, VF, EE, EE, EE]);
    equal(joinedRanges(ranges), [
      { kind: 'VF', strips: [0, 36], dots: [0, 12], patches: [0, 6] },
      { kind: 'EE', strips: [36, 72], dots: [12, 12], patches: [6, 6] },
    ]);
    equal(joinedRanges([]), []);
  }],
];
