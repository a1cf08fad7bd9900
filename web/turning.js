// Vectors, and the camera that looks at the film. Nothing is foreshortened: the camera is a centre, two angles, and half of
// the height that it sees.

export const minus = (a, b) => [a[0] - b[0], a[1] - b[1], a[2] - b[2]];
export const dot = (a, b) => a[0] * b[0] + a[1] * b[1] + a[2] * b[2];
export const cross = (a, b) => [a[1] * b[2] - a[2] * b[1], a[2] * b[0] - a[0] * b[2], a[0] * b[1] - a[1] * b[0]];
export const norm = (a) => Math.hypot(a[0], a[1], a[2]);
const between = (least, x, greatest) => Math.max(least, Math.min(greatest, x));

const STEEPEST = Math.PI / 2;
const TILT = 0.5; // so that what goes through a face is seen to do so

// Where right, up and the viewer are.
export function axesOf({ yaw, pitch }) {
  const [cy, sy, cp, sp] = [Math.cos(yaw), Math.sin(yaw), Math.cos(pitch), Math.sin(pitch)];
  return { right: [-sy, cy, 0], up: [-sp * cy, -sp * sy, cp], toward: [cp * cy, cp * sy, sp] };
}

// The matrix from the sheet's coordinates to the picture's, by columns. `depth` is how far the film goes at most.
export function matrixOf(camera, aspect, depth) {
  const { right, up, toward } = axesOf(camera);
  const rows = [right.map((x) => x / (camera.half * aspect)), up.map((x) => x / camera.half), toward.map((x) => -x / depth)];
  const columns = [0, 1, 2].flatMap((axis) => [rows[0][axis], rows[1][axis], rows[2][axis], 0]);
  return [...columns, ...rows.map((row) => -dot(row, camera.centre)), 1];
}

// Where a place is in a picture of so many pixels, from its lower left corner, and how many pixels a unit has.
export function placeIn(camera, place, width, height) {
  const { right, up } = axesOf(camera);
  const unit = height / (2 * camera.half);
  const seen = minus(place, camera.centre);
  return [width / 2 + dot(seen, right) * unit, height / 2 + dot(seen, up) * unit, unit];
}

export const turned = (camera, across, down) => ({
  ...camera, yaw: camera.yaw - across, pitch: between(-STEEPEST, camera.pitch + down, STEEPEST),
});

// What is seen moves by so many halves of the height, to the right and up.
export function moved(camera, across, high) {
  const { right, up } = axesOf(camera);
  return { ...camera, centre: camera.centre.map((x, axis) => x - camera.half * (across * right[axis] + high * up[axis])) };
}

// Nearer by a factor, toward a place of the picture that stays: so many halves of the height to the right of its middle and up.
export function nearer(camera, factor, whole, [across, high] = [0, 0]) {
  const half = between(whole / 400, camera.half / factor, whole * 4);
  return { ...moved(camera, -across * (1 - half / camera.half), -high * (1 - half / camera.half)), half };
}

// The point i of a table at a fraction of the step.
export function pointAt(points, i, fraction) {
  return [0, 1, 2].map((axis) => points[6 * i + axis] * (1 - fraction) + points[6 * i + 3 + axis] * fraction);
}

// The least box around all starts and ends: its middle, and how long its diagonal is.
export function boundsOf(points) {
  const least = [Infinity, Infinity, Infinity], greatest = [-Infinity, -Infinity, -Infinity];
  points.forEach((value, i) => {
    least[i % 3] = Math.min(least[i % 3], value);
    greatest[i % 3] = Math.max(greatest[i % 3], value);
  });
  if (points.length === 0) return { middle: [0, 0, 0], diagonal: 1 };
  return { middle: least.map((x, axis) => (x + greatest[axis]) / 2), diagonal: norm(minus(greatest, least)) || 1 };
}

// The camera that sees all of the film, starts and ends, from the given angles.
export function seeingAll(points, { yaw, pitch }, aspect) {
  const { middle, diagonal } = boundsOf(points);
  const { right, up } = axesOf({ yaw, pitch });
  let [across, high] = [0, 0];
  for (let i = 0; i + 2 < points.length; i += 3) {
    const seen = minus([points[i], points[i + 1], points[i + 2]], middle);
    across = Math.max(across, Math.abs(dot(seen, right)));
    high = Math.max(high, Math.abs(dot(seen, up)));
  }
  return { centre: middle, yaw, pitch, half: 1.12 * Math.max(high, across / aspect, diagonal / 20) };
}

// The points of an entry, by number: of the first feature, then of the second.
export function pointsOf(entry, faces) {
  if (entry.kind === 'EE') return entry.edges.flat();
  return [entry.point, faces[3 * entry.face], faces[3 * entry.face + 1], faces[3 * entry.face + 2]];
}

// An entry at a fraction of the step: its points, their middle, and how far from there they reach.
export function extentOf(entry, { points, faces }, fraction) {
  const at = pointsOf(entry, faces).map((i) => pointAt(points, i, fraction));
  const centre = [0, 1, 2].map((axis) => at.reduce((sum, p) => sum + p[axis], 0) / at.length);
  return { at, centre, reach: Math.max(...at.map((p) => norm(minus(p, centre)))) };
}

// Where film is cut away so that an entry is seen: before its foremost point, by a little more.
export function cutFor(entry, film, fraction, camera, whole) {
  const { toward } = axesOf(camera);
  const { at, centre, reach } = extentOf(entry, film, fraction);
  const foremost = at.reduce((best, p) => (dot(p, toward) > dot(best, toward) ? p : best));
  return { front: foremost.map((x, axis) => x + toward[axis] * 0.002 * whole), centre, reach: Math.max(reach, whole / 200) };
}

// The camera that faces an entry at a fraction of the step, with the entry in the middle: near to the normal of its face, or
// of its two edges, from the side that is less of a turn.
export function facing(entry, { points, faces }, fraction, camera, aspect) {
  const { at, centre, reach } = extentOf(entry, { points, faces }, fraction);
  const normal = entry.kind === 'VF' ? cross(minus(at[2], at[1]), minus(at[3], at[1])) : cross(minus(at[1], at[0]), minus(at[3], at[2]));
  const whole = boundsOf(points).diagonal;
  const half = Math.max(2.1 * reach, whole / 60) / Math.min(1, aspect);
  const size = norm(normal);
  if (size < 1e-9 * Math.max(1, reach * reach)) return { ...camera, centre, half };
  const side = dot(normal, axesOf(camera).toward) < 0 ? -1 : 1;
  const [x, y, z] = normal.map((value) => (side * value) / size);
  const steep = Math.asin(between(-1, z, 1));
  const yaw = Math.hypot(x, y) < 1e-6 ? camera.yaw : Math.atan2(y, x);
  return { centre, yaw: nearestTurn(yaw, camera.yaw), pitch: steep > 0 ? steep - TILT : steep + TILT, half };
}

// The same angle, at most half a turn away from another.
export function nearestTurn(angle, other) {
  return angle - 2 * Math.PI * Math.round((angle - other) / (2 * Math.PI));
}

// A camera between two.
export function amid(a, b, part) {
  const mix = (x, y) => x + (y - x) * part;
  return {
    centre: a.centre.map((x, axis) => mix(x, b.centre[axis])), yaw: mix(a.yaw, b.yaw), pitch: mix(a.pitch, b.pitch),
    half: Math.exp(mix(Math.log(a.half), Math.log(b.half))),
  };
}
