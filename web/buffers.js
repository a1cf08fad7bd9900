// The film and its marks as rows of numbers for the picture. A place is six numbers of a point: its start and its end.
import { pointsOf } from './turning.js';

export const FILM_ROW = 18; // a corner, and the two after it: three places
export const STRIP_ROW = 14; // two ends of a line: two places; which end, and which side of the line
export const DOT_ROW = 8; // one place; which corner of the square around it

const placeOf = (points, i) => points.subarray(6 * i, 6 * i + 6);

// Three rows a face: each corner stands first once, so that each row knows the whole face.
export function filmRows({ points, faces }) {
  const rows = new Int16Array(faces.length * FILM_ROW);
  for (let i = 0; i < faces.length; i++) {
    const first = i - (i % 3);
    for (let k = 0; k < 3; k++) rows.set(placeOf(points, faces[first + ((i + k) % 3)]), i * FILM_ROW + 6 * k);
  }
  return rows;
}

// The edges of the faces, each once, as two point numbers.
export function edgesOf(faces) {
  const seen = new Set();
  for (let i = 0; i < faces.length; i++) {
    const first = i - (i % 3);
    const a = faces[i], b = faces[first + ((i + 1) % 3)];
    seen.add(a < b ? a * 65536 + b : b * 65536 + a);
  }
  return Uint16Array.from([...seen].flatMap((both) => [Math.floor(both / 65536), both % 65536]));
}

const STRIP_CORNERS = [[0, -1], [0, 1], [1, -1], [1, -1], [0, 1], [1, 1]];
const DOT_CORNERS = [[-1, -1], [1, -1], [-1, 1], [-1, 1], [1, -1], [1, 1]];

// The marks of the entries, and where those of each entry begin and end: strips for the lines, dots for the points, and
// patches for the faces, in vertices.
export function markRows({ points, faces }, entries) {
  const strips = [], dots = [], patches = [], ranges = [];
  for (const entry of entries) {
    const range = { kind: entry.kind, strips: [strips.length, 0], dots: [dots.length, 0], patches: [patches.length, 0] };
    const ns = pointsOf(entry, faces);
    const lines = entry.kind === 'VF' ? [[ns[1], ns[2]], [ns[2], ns[3]], [ns[3], ns[1]]] : [[ns[0], ns[1]], [ns[2], ns[3]]];
    for (const [a, b] of lines) for (const corner of STRIP_CORNERS) strips.push([...placeOf(points, a), ...placeOf(points, b), ...corner]);
    if (entry.kind === 'VF') {
      for (const corner of DOT_CORNERS) dots.push([...placeOf(points, ns[0]), ...corner]);
      for (const n of ns.slice(1)) patches.push([...placeOf(points, n)]);
    }
    range.strips[1] = strips.length;
    range.dots[1] = dots.length;
    range.patches[1] = patches.length;
    ranges.push(range);
  }
  const flat = (rows) => Int16Array.from(rows.flat());
  return { strips: flat(strips), dots: flat(dots), patches: flat(patches), ranges };
}

// Runs of successive entries of one kind, each as one range: so few draws mark all.
export function joinedRanges(ranges) {
  const joined = [];
  for (const range of ranges) {
    const last = joined[joined.length - 1];
    if (last && last.kind === range.kind) {
      for (const of of ['strips', 'dots', 'patches']) last[of][1] = range[of][1];
    } else {
      joined.push({ kind: range.kind, strips: [...range.strips], dots: [...range.dots], patches: [...range.patches] });
    }
  }
  return joined;
}
