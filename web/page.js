// The page's own wiring: files in, a run in the worker, and what it found into the page.
import { sortFiles, swapped, takenAs } from './files.js';
import { chosenFiles, droppedFiles, readFiles } from './intake.js';
import { makeKeeper } from './keeper.js';
import { bytesOfBase64, has64, modulesToTry, whyNone } from './modules.js';
import { explainEnding, groundsOf, pressEntry, showCounts, showDownloads, showEntries, showFault, showRefusals, showReport, showConclusion } from './panels.js';
import { agrees, pairsIn } from './report.js';
import { makeStage } from './stage.js';
import { pairsCount, testsCount, timeWords } from './words.js';

const $ = (id) => document.getElementById(id);
const dataset = document.body.dataset;
const embedded = (id) => $(id).textContent.trim();

let keeper = null;
let stage = null;
let job = null; // the run that goes on: { sorted }
let sorted = null; // the files that are shown or inspected
let chosen = -1;
let addresses = [];
let clock = 0;
let since = 0; // when the run began
let came = 0; // how often files came: where they come while others are read, the last are taken

function say(text) { $('state').textContent = text; }
function setState(state, text) { dataset.state = state; say(text); }

// ---- beginning
async function begin() {
  dataset.state = 'loading';
  dataset.runs = '0';
  stage = makeStage({
    canvas: $('view'), slider: $('step'), play: $('play'), where: $('where'), whole: $('whole'),
    ruler: [...$('ruler').children], hint: $('hint'), none: $('no-picture'), cutNote: $('cut-note'),
  });
  const hasWasm = typeof WebAssembly === 'object';
  const can64 = hasWasm && has64();
  const given = { 64: embedded('module'), 32: embedded('module32') };
  const tries = hasWasm ? modulesToTry({ can64, only32: location.hash === '#32', given64: given[64] !== '', given32: given[32] !== '' }) : [];
  let failure = 'it is not there';
  for (const bits of tries) {
    let tried = null;
    try {
      tried = makeKeeper(embedded('worker'), bytesOfBase64(given[bits]));
      await tried.start();
      keeper = tried;
      dataset.module = String(bits);
      break;
    } catch (error) {
      failure = error.message;
      if (tried) tried.end();
    }
  }
  if (!keeper) {
    document.querySelectorAll('#drop button, #drop input').forEach((control) => { control.disabled = true; });
    $('drop').classList.add('off');
    setState('broken', whyNone({ hasWasm, can64: can64 || given[32] !== '', error: failure }));
    return;
  }
  $('about-module').textContent = `The module runs with ${dataset.module}-bit memory.`;
  setState('ready', 'Ready. The files stay in this page.');
}

// ---- files
async function take(files) {
  const mine = ++came;
  let what;
  try {
    what = sortFiles(await readFiles(await files));
  } catch (error) {
    what = { kind: 'wrong', why: `The files could not be read: ${error.message}. Drop the files themselves, or choose them.` };
  }
  await begun;
  if (keeper && mine === came) receive(what);
}

function receive(what) {
  came += 1;
  stopWork();
  clear();
  if (what.kind === 'wrong') { setState('ready', what.why); return; }
  run(what);
}

function example() {
  const files = JSON.parse(embedded('example-files'));
  const file = (name) => ({ name, bytes: bytesOfBase64(files[name]) });
  receive({ kind: 'frames', start: file('sheet.obj'), end: file('next.obj'), by: 'example', unused: [] });
}

// ---- a run
async function run(what) {
  const mine = { sorted: what };
  job = mine;
  sorted = what;
  $('taken').hidden = false;
  $('taken-as').textContent = takenAs(what);
  $('swap').hidden = what.kind !== 'frames';
  setState('working', 'Working.');
  startClock();
  const asked = what.kind === 'frames' ? { kind: 'frames', start: what.start.bytes, end: what.end.bytes }
    : { kind: 'plan', sheet: what.sheet.bytes, step: what.step.bytes, pairs: what.pairs ? what.pairs.bytes : null };
  let film = null;
  try {
    const result = await keeper.ask('run', { job: asked }, (told) => {
      if (job !== mine) return;
      if (told.film) { film = told.film; stage.show(film); $('stage').classList.add('filled'); }
      say(`${told.doing}.`);
    });
    if (job !== mine) return;
    show(what, result, film, performance.now() - since);
    endWork();
  } catch (error) {
    if (job !== mine) return;
    stopWork();
    clear();
    setState('stopped', `The run stopped: ${error.message}. Nothing is said of these files.`);
  }
}

function tick() { $('elapsed').textContent = `${((performance.now() - since) / 1000).toFixed(1)} s`; }

function startClock() {
  since = performance.now();
  $('work').hidden = false;
  tick();
  clock = setInterval(tick, 100);
}

// What has the focus is about to be hidden: then the state takes it.
function leave(element) {
  if (element.contains(document.activeElement)) $('state').focus();
}

function endWork() {
  job = null;
  leave($('work'));
  clearInterval(clock);
  $('work').hidden = true;
}

function stopWork() {
  if (!job) return false;
  endWork();
  keeper.stop().catch(() => {});
  return true;
}

function clear() {
  chosen = -1;
  leave($('found'));
  for (const id of ['taken', 'conclusion-box', 'fault', 'found', 'listed', 'refusals', 'counted']) $(id).hidden = true;
  for (const id of ['conclusion', 'notes', 'fault', 'counts', 'entries', 'refused', 'report', 'downloads']) $(id).replaceChildren();
  addresses.forEach((address) => URL.revokeObjectURL(address));
  addresses = [];
  stage.show(null);
  $('stage').classList.remove('filled');
}

// ---- what it found
function show(what, result, film, took) {
  const { report, text, outcome } = result;
  const well = outcome === 'covered' || outcome === 'refused';
  if (well && !agrees(result)) {
    setState('stopped', 'The report is not one that this page understands, so it shows nothing of it.');
    return;
  }
  $('found').hidden = false;
  showReport($('report'), text);
  const refused = pairsIn(result.refused);
  addresses = showDownloads($('downloads'), [
    ['report.txt', text], result.step && ['step.bin', result.step], result.pairs && ['pairs.bin', result.pairs], refused && ['refused.bin', result.refused],
  ].filter(Boolean));
  if (well) {
    showConclusion({ box: $('conclusion-box'), conclusion: $('conclusion'), notes: $('notes') }, groundsOf(what, result, film));
    showCounts($('counts'), report.counts);
    $('counted').hidden = false;
    showEntries($('entries'), report.entries, choose);
    $('listed').hidden = report.entries.length === 0;
    $('listed-count').textContent = testsCount(report.entries.length);
    showRefusals($('refused'), $('refused-rest'), result.refused, report.faults);
    $('refusals').hidden = refused === 0;
    $('refused-count').textContent = pairsCount(refused);
    $('again').onclick = () => again(what, result);
    stage.show(film, report.entries);
  } else {
    showFault($('fault'), explainEnding(what, result));
    stage.show(film);
  }
  dataset.runs = String(Number(dataset.runs) + 1);
  const told = well ? `${testsCount(report.entries.length)} listed, ${pairsCount(refused)} refused` : (outcome === 'differ' ? 'the frames differ' : 'the run ended at a fault');
  setState('done', `Done in ${timeWords(took)}: ${told}.`);
}

function choose(i) {
  chosen = chosen === i ? -1 : i;
  pressEntry($('entries'), chosen);
  stage.choose(chosen);
}

// The refused pairs in a run of their own.
function again(what, result) {
  const sheet = what.kind === 'plan' ? what.sheet : what.start;
  receive({ kind: 'plan', sheet, step: { name: 'step.bin', bytes: result.step }, pairs: { name: 'refused.bin', bytes: result.refused }, unused: [], again: true });
}

// In the list, arrow keys go from entry to entry.
function step(event) {
  const all = [...$('entries').querySelectorAll('button')];
  const at = all.indexOf(document.activeElement);
  const to = { ArrowDown: at + 1, ArrowUp: at - 1, Home: 0, End: all.length - 1 }[event.key];
  if (at < 0 || to === undefined || !all[to]) return;
  event.preventDefault();
  all[to].focus();
}

// ---- wiring
$('entries').addEventListener('keydown', step);
$('past').addEventListener('click', () => $('report').focus());
$('files').addEventListener('change', (event) => { take(chosenFiles(event.target.files)); event.target.value = ''; });
$('folder').addEventListener('change', (event) => { take(chosenFiles(event.target.files)); event.target.value = ''; });
$('example').addEventListener('click', async () => { await begun; if (keeper) example(); });
$('swap').addEventListener('click', () => { if (sorted) receive(swapped(sorted)); });
$('stop').addEventListener('click', () => { if (stopWork()) { clear(); setState('stopped', 'Stopped. Nothing is said of these files.'); } });

// The whole window takes drops of files; other drags are left alone.
let over = 0;
function drag(event, change) {
  if (!event.dataTransfer || ![...event.dataTransfer.types].includes('Files')) return false;
  event.preventDefault();
  over = Math.max(0, over + change);
  $('drop').classList.toggle('over', over > 0);
  return true;
}
addEventListener('dragenter', (event) => drag(event, 1));
addEventListener('dragover', (event) => drag(event, 0));
addEventListener('dragleave', (event) => drag(event, -1));
addEventListener('drop', (event) => { if (drag(event, -over)) take(droppedFiles(event.dataTransfer)); });

const begun = begin();
