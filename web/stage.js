// The view: the film in the picture, turned by dragging, with the slider over the step.
import { listenToHands } from './hands.js';
import { makePicture } from './picture.js';
import { amid, boundsOf, cutFor, facing, nearestTurn, seeingAll } from './turning.js';
import { middleOf, partOf, pictureWords, whereWords } from './words.js';

const FIRST_LOOK = { yaw: -1.05, pitch: 0.8 };
const TURN_TIME = 320;
const PLAY_TIME = 4000;

const COLOURS = {
  light: { ground: [0.925, 0.94, 0.953], front: [0.66, 0.745, 0.825], back: [0.89, 0.79, 0.585], edge: [0.13, 0.2, 0.28, 0.5] },
  dark: { ground: [0.075, 0.098, 0.125], front: [0.5, 0.6, 0.7], back: [0.72, 0.61, 0.4], edge: [0.02, 0.04, 0.06, 0.75] },
};

// Of the page's elements it takes: canvas, slider, play, where, whole, ruler (four elements), hint, none (told where there is no
// picture), cutNote (told where film is cut away).
export function makeStage({ canvas, slider, play, where, whole, ruler, hint, none, cutNote }) {
  const dark = matchMedia('(prefers-color-scheme: dark)');
  const calm = matchMedia('(prefers-reduced-motion: reduce)');
  let film = null, entries = [], chosen = -1, bounds = { middle: [0, 0, 0], diagonal: 1 };
  let camera = { centre: [0, 0, 0], half: 1, ...FIRST_LOOK }, seesAll = true;
  let fraction = 0, playing = null, turning = null, asked = false;

  let picture = null;
  try { picture = makePicture(canvas, () => { none.hidden = true; look(); }); } catch { picture = null; }
  canvas.addEventListener('webglcontextlost', () => { none.hidden = false; });
  if (!picture) {
    none.hidden = false;
    for (const useless of [canvas, whole, hint]) useless.hidden = true;
  }

  const aspect = () => (canvas.clientWidth || 1) / (canvas.clientHeight || 1);
  const look = () => { if (!asked) { asked = true; requestAnimationFrame(paint); } };

  function paint(now) {
    asked = false;
    if (playing) {
      setFraction(Math.min(1, Math.max(0, (now - playing) / PLAY_TIME)));
      if (fraction === 1) stopPlaying(); else look();
    }
    if (turning) {
      const part = Math.min(1, Math.max(0, (now - turning.begun) / TURN_TIME));
      camera = amid(turning.from, turning.to, 1 - (1 - part) ** 3);
      if (part === 1) endTurn(); else look();
    }
    if (seesAll && film && !turning) camera = { ...seeingAll(film.points, camera, aspect()) };
    if (picture) {
      const entry = film && entries[chosen];
      picture.draw({
        camera, fraction, chosen, depth: 1.05 * bounds.diagonal, colours: dark.matches ? COLOURS.dark : COLOURS.light,
        cut: entry ? cutFor(entry, film, fraction, camera, bounds.diagonal) : null,
      });
    }
  }

  function endTurn() {
    turning = null;
    document.body.dataset.view = 'still';
  }

  function turnTo(to) {
    const from = camera;
    const goal = { ...to, yaw: nearestTurn(to.yaw, from.yaw) };
    if (calm.matches || !picture) { camera = goal; endTurn(); look(); return; }
    turning = { from, to: goal, begun: performance.now() };
    document.body.dataset.view = 'moving';
    look();
  }

  function setFraction(value) {
    fraction = value;
    slider.value = String(Math.round(1000 * value));
    const words = whereWords(value);
    where.textContent = words;
    slider.setAttribute('aria-valuetext', words);
    const part = partOf(value);
    ruler.forEach((cell, i) => cell.classList.toggle('here', i === part));
    describe();
  }

  function describe() {
    const of = (kind) => entries.filter((entry) => entry.kind === kind).length;
    canvas.setAttribute('aria-label', pictureWords({
      points: film ? film.points.length / 6 : 0, faces: film ? film.faces.length / 3 : 0, fraction,
      vf: of('VF'), ee: of('EE'), chosen: entries[chosen] || null,
    }));
  }

  function stopPlaying() {
    playing = null;
    play.textContent = 'Play';
  }

  function seeAll() {
    seesAll = true;
    if (film) turnTo(seeingAll(film.points, FIRST_LOOK, aspect()));
  }

  // The view is no longer of the whole sheet, nor on its way to an entry: it goes where a hand takes it.
  function free(change) {
    seesAll = false;
    if (turning) endTurn();
    camera = change(camera);
    look();
  }

  listenToHands(canvas, { free, seeAll, whole: () => bounds.diagonal });

  slider.addEventListener('input', () => { stopPlaying(); setFraction(slider.value / 1000); look(); });
  play.addEventListener('click', () => {
    if (playing) { stopPlaying(); return; }
    playing = performance.now() - (fraction >= 1 ? 0 : fraction) * PLAY_TIME;
    play.textContent = 'Pause';
    look();
  });
  whole.addEventListener('click', seeAll);
  dark.addEventListener('change', look);
  new ResizeObserver(look).observe(canvas);

  setFraction(0);
  document.body.dataset.view = 'still';
  look();

  return {
    // Shows a film with its listed entries, or none.
    show(newFilm, newEntries = []) {
      const same = film === newFilm;
      film = newFilm;
      entries = newEntries;
      chosen = -1;
      if (picture) { if (film) picture.load(film, entries); else picture.clear(); }
      if (!same) {
        stopPlaying();
        if (turning) endTurn();
        bounds = film ? boundsOf(film.points) : bounds;
        camera = { ...camera, ...FIRST_LOOK };
        seesAll = true;
        setFraction(0);
      }
      ruler.forEach((cell) => cell.classList.remove('window'));
      cutNote.hidden = true;
      describe();
      look();
    },

    // Turns the view to an entry at the middle of its window; −1 chooses none.
    choose(i) {
      chosen = i;
      const entry = entries[i];
      cutNote.hidden = !entry;
      ruler.forEach((cell, part) => cell.classList.toggle('window', Boolean(entry && entry.window && part >= entry.window.first && part <= entry.window.last)));
      if (!entry || !film) { describe(); look(); return; }
      stopPlaying();
      seesAll = false;
      const middle = middleOf(entry);
      setFraction(middle === null ? fraction : middle);
      turnTo(facing(entry, film, fraction, camera, aspect()));
    },
  };
}
