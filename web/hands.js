// Hands on the picture: dragging, pinching, the wheel and keys.
import { moved, nearer, turned } from './turning.js';

const TURN_BY = 0.12; // of a key
const NEAR_BY = 1.15;
const PIXELS = 160; // to be dragged for a turn by one radian

// `free` is called with a change of the camera, `seeAll` to see the whole sheet; `whole` tells how long its diagonal is.
export function listenToHands(canvas, { free, seeAll, whole }) {
  const pointers = new Map();
  const halves = () => canvas.clientHeight / 2 || 1;
  // Where a place of the screen is in the picture: halves of its height from its middle.
  function placeOnView({ x, y }) {
    const box = canvas.getBoundingClientRect();
    return [(x - box.left - box.width / 2) / halves(), (box.top + box.height / 2 - y) / halves()];
  }
  function pinch() {
    const [p, q] = [...pointers.values()];
    return { size: Math.max(1, Math.hypot(p.x - q.x, p.y - q.y)), middle: { x: (p.x + q.x) / 2, y: (p.y + q.y) / 2 } };
  }
  canvas.addEventListener('pointerdown', (event) => {
    canvas.setPointerCapture(event.pointerId);
    pointers.set(event.pointerId, { x: event.clientX, y: event.clientY });
  });
  canvas.addEventListener('pointermove', (event) => {
    if (!event.buttons) pointers.delete(event.pointerId); // let go of where it was not seen, as over a menu
    const last = pointers.get(event.pointerId);
    if (!last) return;
    const before = pointers.size === 2 ? pinch() : null;
    pointers.set(event.pointerId, { x: event.clientX, y: event.clientY });
    const [across, down] = [event.clientX - last.x, event.clientY - last.y];
    if (before) {
      const { size, middle } = pinch();
      const by = [(middle.x - before.middle.x) / halves(), (before.middle.y - middle.y) / halves()];
      free((c) => nearer(moved(c, ...by), size / before.size, whole(), placeOnView(middle)));
    } else if (pointers.size === 1 && event.shiftKey) free((c) => moved(c, across / halves(), -down / halves()));
    else if (pointers.size === 1) free((c) => turned(c, across / PIXELS, down / PIXELS));
  });
  for (const kind of ['pointerup', 'pointercancel']) canvas.addEventListener(kind, (event) => pointers.delete(event.pointerId));
  canvas.addEventListener('wheel', (event) => {
    event.preventDefault();
    const factor = Math.exp(-event.deltaY / (event.deltaMode ? 25 : 700));
    free((c) => nearer(c, factor, whole(), placeOnView({ x: event.clientX, y: event.clientY })));
  }, { passive: false });
  const KEYS = {
    ArrowLeft: (c) => turned(c, -TURN_BY, 0), ArrowRight: (c) => turned(c, TURN_BY, 0),
    ArrowUp: (c) => turned(c, 0, -TURN_BY), ArrowDown: (c) => turned(c, 0, TURN_BY),
    '+': (c) => nearer(c, NEAR_BY, whole()), '=': (c) => nearer(c, NEAR_BY, whole()), '-': (c) => nearer(c, 1 / NEAR_BY, whole()),
  };
  canvas.addEventListener('keydown', (event) => {
    if (event.ctrlKey || event.metaKey || event.altKey) return;
    if (event.key === 'Home' || event.key === '0') seeAll();
    else if (KEYS[event.key]) free(KEYS[event.key]);
    else return;
    event.preventDefault();
  });
}
