// What is put into the page. In node there is no document, so there these pass and say nothing.
import { explainEnding, groundsOf, make, pressEntry, showCounts, showEntries, showFault, showRefusals, showConclusion } from '../panels.js';
import { readReport } from '../report.js';
import { equal, holds, textBytes } from './harness.js';

const inPage = (test) => () => (typeof document === 'undefined' ? undefined : test());
const file = (name, text) => ({ name, bytes: textBytes(text) });
const report = (text) => readReport(text);
const film = { points: new Int16Array(36), faces: new Uint16Array(6) };

export const tests = [
  ['what a conclusion rests on', () => {
    const result = { found: true, pairs: new Uint8Array(8), refused: new Uint8Array(4), refusedWords: 'One.', report: report('VF 3 0 1 2\n') };
    equal(groundsOf({ kind: 'frames', pairs: undefined }, result, film), { whole: true, faces: 2, offered: 2, refused: 1, refusedWords: 'One.', listed: 1, source: 'the plan', again: false });
    equal(groundsOf({ kind: 'plan', pairs: file('a/pairs.bin', '') }, { ...result, found: false }, film).source, 'pairs.bin');
  }],
  ['whose fault it is', () => {
    const frames = { kind: 'frames', start: file('START.obj', 'v 0 0 x\n'), end: file('END.obj', 'v 0 0 y\n') };
    const of = (outcome, text, sorted = frames) => explainEnding(sorted, { outcome, report: report(text) }).places.map((place) => [place.file, place.text]);
    equal(of('first fault', 'fault 1 field 1 3\n'), [['START.obj', 'v 0 0 x']]);
    equal(of('second fault', 'fault 1 field 1 3\n'), [['END.obj', 'v 0 0 y']]);
    equal(of('search fault', 'step 1 points, 0 moved, 1 bytes\nfault 25 search 0 0\n'), [['START.obj', null]]);
    equal(of('differ', 'the frames have 36 and 35 points\n'), [['START.obj', null], ['END.obj', null]]);
    const plan = { kind: 'plan', sheet: file('sheet.obj', 'v 1 2 3\n'), step: file('step.bin', '') };
    equal(of('fault', 'fault 8 step 0 0\n', plan), [['step.bin', null], ['sheet.obj', 'v 1 2 3']]);
  }],
  ['a conclusion', inPage(() => {
    const [box, conclusion, notes] = [make('div', { hidden: true }), make('div'), make('div')];
    showConclusion({ box, conclusion, notes }, { whole: true, faces: 2, offered: 1, refused: 1, refusedWords: 'One.', listed: 0, source: 'the plan' });
    equal([box.hidden, box.dataset.kind, conclusion.children.length, notes.children.length], [false, 'refused', 2, 1]);
  })],
  ['counts', inPage(() => {
    const table = make('table');
    showCounts(table, report('VF kept 1 struck 7352 shared 2 repeated 3\nEE kept 4 struck 5 shared 6 repeated 7\n').counts);
    equal([...table.querySelectorAll('td')].map((cell) => cell.textContent), ['7,358', '1', '7,352', '2', '3', '22', '4', '5', '6', '7']);
  })],
  ['entries', inPage(() => {
    const list = make('ol'), chosen = [];
    showEntries(list, report('VF 3 0 1 2\nEE 1 2 3 4 - -\n').entries, (i) => chosen.push(i));
    const buttons = [...list.querySelectorAll('button')];
    equal(buttons.map((button) => [button.dataset.entry, button.getAttribute('aria-pressed'), button.querySelectorAll('.on').length]), [['0', 'false', 2], ['1', 'false', 0]]);
    equal(buttons.map((button) => button.textContent), ['Point 3 and face 0 parts 1 to 2', 'Edge 1\u20132 and edge 3\u20134 no part any more']);
    buttons[1].click();
    pressEntry(list, 1);
    equal([chosen, buttons.map((button) => button.getAttribute('aria-pressed'))], [[1], ['false', 'true']]);
  })],
  ['refused pairs', inPage(() => {
    const list = make('ol'), rest = make('p');
    showRefusals(list, rest, Uint8Array.of(7, 0, 8, 1), [{ line: 'fault 21 offer 0 0', words: 'Its words.' }]);
    equal([list.children.length, rest.hidden], [1, true]);
    equal(list.textContent, 'Faces 7 and 264 Its words. fault 21 offer 0 0');
    showRefusals(list, rest, new Uint8Array(4 * 1203), []);
    equal([list.children.length, rest.hidden, rest.textContent], [200, false, 'And 1,003 more: refused.bin has all.']);
  })],
  ['a fault, with its field marked and nothing taken for markup', inPage(() => {
    const box = make('div', { hidden: true });
    const sorted = { kind: 'frames', start: file('START.obj', 'v 1 <b>x</b> 3\n'), end: file('END.obj', '') };
    showFault(box, explainEnding(sorted, { outcome: 'first fault', report: report('fault 1 field 1 2\n') }));
    equal([box.hidden, box.querySelector('mark').textContent, box.querySelectorAll('b').length], [false, '<b>x</b>', 0]);
    equal(box.querySelector('.text').textContent, 'v 1 <b>x</b> 3');
    equal(box.querySelector('.where').textContent, 'START.obj, line 1, field 2');
    showFault(box, explainEnding({ ...sorted, start: file('START.obj', 'v 1\n') }, { outcome: 'first fault', report: report('fault 1 field 1 2\n') }));
    holds(box.querySelector('mark.missing'), 'a missing field is marked');
  })],
];
