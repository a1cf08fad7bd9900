import { amid, axesOf, boundsOf, cross, cutFor, dot, facing, matrixOf, moved, nearer, nearestTurn, norm, placeIn, pointAt, pointsOf, seeingAll, turned } from '../turning.js';
import { close, equal, holds } from './harness.js';

// a resting face, and a point that goes through it
const POINTS = Int16Array.of(0, 0, 0, 0, 0, 0, 4, 0, 0, 4, 0, 0, 0, 4, 0, 0, 4, 0, 1, 1, 1, 1, 1, -1, 1, 1, 9, 1, 1, 9, 2, 1, 9, 2, 1, 9);
const FACES = Uint16Array.of(0, 1, 2, 3, 4, 5);
const VF = { kind: 'VF', point: 3, face: 0, window: { first: 1, last: 2 } };
const camera = { centre: [0, 0, 0], yaw: -1, pitch: 0.8, half: 10 };
const put = (m, [x, y, z]) => [0, 1, 2].map((row) => m[row] * x + m[4 + row] * y + m[8 + row] * z + m[12 + row]);

export const tests = [
  ['right, up and toward the viewer stand on each other', () => {
    for (const [yaw, pitch] of [[0, 0], [1, 0.5], [-2, 1.57], [3, -1.2]]) {
      const { right, up, toward } = axesOf({ yaw, pitch });
      close([norm(right), norm(up), norm(toward)], [1, 1, 1], 'their lengths');
      close(cross(right, up), toward, 'right and up');
      holds(up[2] >= -1e-9, 'up is not down');
    }
  }],
  ['the matrix puts the centre in the middle and what is nearer in front', () => {
    const view = { ...camera, centre: [5, 6, 7] };
    const m = matrixOf(view, 2, 100);
    close(put(m, [5, 6, 7]), [0, 0, 0]);
    const { right, up, toward } = axesOf(view);
    close(put(m, right.map((x, i) => view.centre[i] + 20 * x)), [1, 0, 0]);
    close(put(m, up.map((x, i) => view.centre[i] + 10 * x)), [0, 1, 0]);
    holds(put(m, toward.map((x, i) => view.centre[i] + x))[2] < 0, 'what is nearer has less depth');
    close(placeIn(view, view.centre, 200, 100), [100, 50, 5]);
    close(placeIn(view, up.map((x, i) => view.centre[i] + 10 * x), 200, 100).slice(0, 2), [100, 100]);
  }],
  ['all of the film is seen', () => {
    for (const aspect of [0.5, 1, 2]) {
      const m = matrixOf(seeingAll(POINTS, camera, aspect), aspect, boundsOf(POINTS).diagonal);
      for (let i = 0; i < 6; i++) for (const fraction of [0, 0.5, 1]) {
        holds(put(m, pointAt(POINTS, i, fraction)).every((x) => Math.abs(x) <= 1), `point ${i} at ${fraction}`);
      }
    }
    equal(boundsOf(new Int16Array(0)), { middle: [0, 0, 0], diagonal: 1 });
  }],
  ['points go in straight lines', () => {
    close(pointAt(POINTS, 3, 0.5), [1, 1, 0]);
    close(pointAt(POINTS, 3, 1), [1, 1, -1]);
    equal(pointsOf(VF, FACES), [3, 0, 1, 2]);
    equal(pointsOf({ kind: 'EE', edges: [[0, 1], [3, 4]] }, FACES), [0, 1, 3, 4]);
  }],
  ['an entry is faced, in the middle', () => {
    const film = { points: POINTS, faces: FACES };
    const view = facing(VF, film, 0.5, camera, 1.5);
    close(view.centre, [1.25, 1.25, 0]);
    const { toward } = axesOf(view);
    holds(dot(toward, [0, 0, 1]) > 0.7, 'the face is seen from above, where the camera was');
    holds(dot(axesOf(facing(VF, film, 0.5, { ...camera, pitch: -0.8 }, 1.5)).toward, [0, 0, 1]) < -0.7, 'and from below');
    const m = matrixOf(view, 1.5, 20);
    for (const i of pointsOf(VF, FACES)) holds(put(m, pointAt(POINTS, i, 0.5)).every((x) => Math.abs(x) < 0.9), `point ${i} is seen`);
    holds(view.half < seeingAll(POINTS, camera, 1.5).half * 3, 'it is not farther');
  }],
  ['edges in one line are faced from where the camera is', () => {
    const view = facing({ kind: 'EE', edges: [[0, 1], [0, 1]], window: null }, { points: POINTS, faces: FACES }, 0, camera, 1);
    equal([view.yaw, view.pitch], [camera.yaw, camera.pitch]);
  }],
  ['film is cut away before the foremost point', () => {
    const cut = cutFor(VF, { points: POINTS, faces: FACES }, 0, { ...camera, pitch: Math.PI / 2 }, 10);
    close(cut.front[2], 1.02, 'the front');
    holds(cut.reach > 2 && cut.reach < 4, 'its size');
  }],
  ['turning and coming nearer have limits', () => {
    close(turned(camera, 0, 9).pitch, Math.PI / 2);
    close(turned(camera, 0.5, -9).pitch, -Math.PI / 2);
    close(nearer(camera, 2, 20).half, 5);
    close(nearer(camera, 2, 20).centre, camera.centre);
    close(nearer(camera, 1e9, 20).half, 0.05);
    close(nearer(camera, 1e-9, 20).half, 80);
  }],
  ['what is moved is moved, and what is come nearer to stays', () => {
    const place = [3, -2, 5];
    const seenAt = (view) => placeIn(view, place, 300, 200).slice(0, 2);
    const [x, y] = seenAt(camera);
    close(seenAt(moved(camera, 0.5, -0.25)), [x + 50, y - 25], 'moved');
    const at = [(x - 150) / 100, (y - 100) / 100];
    close(seenAt(nearer(camera, 3, 20, at)), [x, y], 'nearer');
    close(seenAt(nearer(camera, 0.5, 20, at)), [x, y], 'farther');
  }],
  ['turns take the shorter way', () => {
    close(nearestTurn(3, -3), 3 - 2 * Math.PI);
    close(nearestTurn(0.1, 0), 0.1);
    const to = { centre: [2, 2, 2], yaw: 1, pitch: 0, half: 40 };
    close(amid(camera, to, 0.5).half, 20);
    close(amid(camera, to, 1).yaw, 1);
    close(amid(camera, to, 0).centre, [0, 0, 0]);
  }],
];
