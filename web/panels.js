// What a run found, put into the page's elements. All text is put in as text.
import { explainDifference, explainFault, fieldSpan, seen } from './faults.js';
import { pairAt, pairsIn, shownReport } from './report.js';
import { entryWords, conclusionOf, windowWords } from './words.js';

const MOST_SHOWN = 200;

export function make(tag, attributes = {}, ...children) {
  const element = document.createElement(tag);
  for (const [name, value] of Object.entries(attributes)) {
    if (value === false || value === null || value === undefined) continue;
    element.setAttribute(name, value === true ? '' : value);
  }
  element.append(...children);
  return element;
}

const whole = (n) => n.toLocaleString('en');

// What the conclusion's sentences rest on.
export function groundsOf(sorted, result, film) {
  return {
    whole: result.found, faces: film ? film.faces.length / 3 : 0,
    offered: pairsIn(result.pairs), refused: pairsIn(result.refused), refusedWords: result.refusedWords, listed: result.report.entries.length,
    source: sorted.pairs ? sorted.pairs.name.split('/').pop() : 'the plan', again: Boolean(sorted.again),
  };
}

export function showConclusion({ box, conclusion, notes }, grounds) {
  const { kind, main, more, notes: said } = conclusionOf(grounds);
  box.dataset.kind = kind;
  conclusion.replaceChildren(make('p', {}, main), ...more.map((sentence) => make('p', {}, sentence)));
  notes.replaceChildren(...said.map((sentence) => make('p', {}, sentence)));
  box.hidden = false;
}

const ROWS = [['VF', 'point, face'], ['EE', 'edge, edge']];
const COLUMNS = [['tests', 'tests'], ['kept', 'listed'], ['struck', 'apart'], ['shared', 'common point'], ['repeated', 'again']];

export function showCounts(table, counts) {
  const head = make('tr', {}, make('th', { scope: 'col' }, 'Features'), ...COLUMNS.map(([, name]) => make('th', { scope: 'col' }, name)));
  const rows = ROWS.map(([kind, name]) => make('tr', {}, make('th', { scope: 'row' }, name), ...COLUMNS.map(([of]) => make('td', {}, whole(counts[kind][of])))));
  table.replaceChildren(make('thead', {}, head), make('tbody', {}, ...rows));
}

// The entries, each a button. The four cells beside it show its window.
export function showEntries(list, entries, choose) {
  list.replaceChildren(...entries.map((entry, i) => {
    const cells = [0, 1, 2, 3].map((part) => make('i', { class: entry.window && part >= entry.window.first && part <= entry.window.last ? 'on' : null }));
    const button = make('button', { type: 'button', 'data-entry': i, 'aria-pressed': 'false', class: entry.kind.toLowerCase() },
      make('span', { class: 'mark', 'aria-hidden': 'true' }), make('span', { class: 'name' }, entryWords(entry)), ' ',
      make('span', { class: 'parts' }, windowWords(entry)), make('span', { class: 'cells', 'aria-hidden': 'true' }, ...cells));
    button.addEventListener('click', () => choose(i));
    return make('li', {}, button);
  }));
}

export function pressEntry(list, chosen) {
  list.querySelectorAll('button').forEach((button, i) => button.setAttribute('aria-pressed', String(i === chosen)));
}

// The refused pairs and why, of which the first are shown. Refusals come in the order of the pairs.
export function showRefusals(list, rest, refused, faults) {
  const shown = Math.min(MOST_SHOWN, pairsIn(refused));
  list.replaceChildren(...Array.from({ length: shown }, (_, i) => {
    const [a, b] = pairAt(refused, i);
    const fault = faults[i];
    return make('li', {}, make('b', {}, `Faces ${a} and ${b}`), ' ', fault ? `${fault.words} ` : '', fault ? make('code', {}, fault.line) : '');
  }));
  const left = pairsIn(refused) - shown;
  rest.hidden = left === 0;
  rest.textContent = left ? `And ${whole(left)} more: refused.bin has all.` : '';
}

export function showReport(pre, text) {
  pre.textContent = shownReport(text);
}

// A run that ended at a fault or at a difference.
export function explainEnding(sorted, result) {
  if (result.outcome === 'differ') return explainDifference(result.report.difference, sorted);
  const sheet = sorted.kind === 'plan' ? sorted.sheet : result.outcome === 'second fault' ? sorted.end : sorted.start;
  return explainFault(result.report.lastFault, { sheet, step: sorted.kind === 'plan' ? sorted.step : null });
}

export function showFault(box, { title, words, printed, places }) {
  const parts = [make('h2', {}, title), make('p', { class: 'words' }, words)];
  for (const { file, line, field, text } of places) {
    const where = [file, line && `line ${line}`, field && `field ${field}`].filter(Boolean).join(', ');
    parts.push(make('p', { class: 'where' }, where));
    if (line) parts.push(make('pre', { class: 'line', role: 'group', tabindex: '0', 'aria-label': `Line ${line} of ${file}` }, make('span', { class: 'number' }, String(line)), ...markedLine(text, field)));
  }
  parts.push(make('p', { class: 'printed' }, 'Printed is ', make('code', {}, printed)));
  box.replaceChildren(...parts);
  box.hidden = false;
}

// A line with its field marked. A long line is cut, and then no field is marked past the cut.
function markedLine(text, field) {
  if (!field) return [make('span', { class: 'text' }, seen(text))];
  const [at, size] = fieldSpan(text, field);
  if (at + size > 160) return [make('span', { class: 'text' }, seen(text))];
  const marked = size ? make('mark', {}, seen(text.slice(at, at + size))) : make('mark', { class: 'missing', 'aria-label': 'missing' });
  return [make('span', { class: 'text' }, seen(text.slice(0, at)), marked, seen(text.slice(at + size)))];
}

// Links that save what was found. Answers their addresses, to be let go of later.
export function showDownloads(list, files) {
  const addresses = [];
  list.replaceChildren(...files.map(([name, data]) => {
    const address = URL.createObjectURL(new Blob([data], { type: name.endsWith('.txt') ? 'text/plain' : 'application/octet-stream' }));
    addresses.push(address);
    return make('li', {}, make('a', { href: address, download: name }, name));
  }));
  return addresses;
}
