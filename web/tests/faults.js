import { makeCore } from '../core.js';
import { explainDifference, explainFault, fieldsOf, fieldSpan, lineOf, linesOf, lineTold, seen } from '../faults.js';
import { readDifference, readFault } from '../report.js';
import { equal, holds, inModule, textBytes } from './harness.js';

const TEXT = '# a sheet\nv 0 0 0\nv 4 0 0\n\nv 0 4 0\nv 1 1 1.5\nf 1 2 3\nf 4 2 9\n';
const sheet = { name: 'END.obj', bytes: textBytes(TEXT) };
const step = { name: 'step.bin' };
const told = (line, text = TEXT) => explainFault({ ...readFault(line), words: 'Its words.' }, { sheet: { name: 'END.obj', bytes: textBytes(text) }, step });

// What the module says of a fault.
const words = (core, line, text = TEXT) => {
  const fault = readFault(line);
  return core.words(fault, lineTold(fault, textBytes(text)));
};
const says = (test) => inModule(async (bytes) => test(await makeCore(bytes)));

export const tests = [
  ['the line of a point and of a face', () => {
    const lines = linesOf(sheet.bytes);
    equal([lineOf(lines, 'v', 0), lineOf(lines, 'v', 2), lineOf(lines, 'f', 1), lineOf(lines, 'f', 2)], [2, 5, 8, 0]);
  }],
  ['the fields of a line', () => {
    equal(fieldsOf('v 1 2 3'), ['1', '2', '3']);
    equal(fieldsOf('v 1 2 3 4'), ['1', '2', '3 4']);
    equal(fieldsOf('v 1'), ['1', '', '']);
    equal(fieldsOf('v  1 2'), ['', '1', '2']);
    equal([fieldSpan('v 1 22 333', 3), fieldSpan('v 1 22 333', 1), fieldSpan('v 1', 3)], [[7, 3], [2, 1], [3, 0]]);
  }],
  ['a fault of a field tells the line and the field', () => {
    const fault = told('fault 1 field 6 3');
    equal(fault.places, [{ file: 'END.obj', line: 6, field: 3, text: 'v 1 1 1.5' }]);
    equal([fault.printed, fault.words], ['fault 1 field 6 3', 'Its words.']);
    const long = told('fault 6 sheet 0 0', ' '.repeat(65537));
    equal(long.places, [{ file: 'END.obj', line: null, field: null, text: null }]);
    equal(told('fault 7 sheet 7 0').places[0].text, 'f 1 2 3');
    equal(seen(told('fault 2 line 1 0', '\ufeffv 0 0 0\n').places[0].text), '\ufffdv 0 0 0');
  }],
  ['the bytes of the line that a fault speaks of', () => {
    const line = (printed, text = TEXT) => lineTold(readFault(printed), textBytes(text));
    equal(line('fault 1 field 6 3'), textBytes('v 1 1 1.5'));
    equal([line('fault 2 line 1 0', '\ufeffv 0'), line('fault 2 line 4 0'), line('fault 2 line 3 0', 'v\r\n\n')], [textBytes('\ufeffv 0'), textBytes(''), textBytes('')]);
    equal(line('fault 2 line 1 0', 'v\r\n\n'), textBytes('v\r'));
    for (const printed of ['fault 6 sheet 0 0', 'fault 11 step 2 1', 'fault 18 offer 1 0', 'fault 25 search 0 0']) equal(line(printed).length, 0, printed);
  }],
  ['each fault of a text has words', says((core) => {
    const field = words(core, 'fault 1 field 6 3');
    holds(field.includes('third field') && field.includes('1.5') && field.includes('whole number'), field);
    holds(words(core, 'fault 2 line 1 0', 'vn 0 0 1\n').includes('without normals'), 'fault 2');
    holds(words(core, 'fault 3 line 1 1', 'v 5000 0 0\n').includes('outside'), 'fault 3');
    holds(words(core, 'fault 4 line 8 3').includes('names no point above'), 'fault 4');
    holds(words(core, 'fault 5 line 7 2').includes('earlier field'), 'fault 5');
    holds(words(core, 'fault 6 sheet 0 0', ' '.repeat(65537)).includes('more than 65,536'), 'fault 6');
    holds(words(core, 'fault 7 sheet 7 0').includes('4,096') && words(core, 'fault 7 sheet 2 0').includes('2,048'), 'fault 7');
  })],
  ['advice where the reason is plain', says((core) => {
    holds(words(core, 'fault 1 field 1 3', 'v 0 0 0\r\n').includes('carriage return'), 'carriage return');
    holds(words(core, 'fault 1 field 1 1', 'f 1/1 2/2 3/3\n').includes('f 1 2 3'), 'slashes');
    equal(words(core, 'fault 1 field 1 3', 'v 0 0\n'), 'The third field is missing.');
    holds(words(core, 'fault 1 field 1 3', 'v 0 0 0 0\n').includes('three fields'), 'four fields');
    holds(words(core, 'fault 2 line 1 0', '\ufeffv 0 0 0\n').includes('byte order mark'), 'a byte order mark');
    holds(!words(core, 'fault 2 line 1 0', 'x\n').includes('Export'), 'no advice where there is no reason');
  })],
  ['a fault of a step tells the point of the sheet', () => {
    const fault = told('fault 11 step 2 1');
    equal(fault.places, [{ file: 'step.bin', line: null, field: null, text: null }, { file: 'END.obj', line: 5, field: null, text: 'v 0 4 0' }]);
    equal(told('fault 12 step 0 0').places, [{ file: 'step.bin', line: null, field: null, text: null }]);
  }],
  ['a fault of an offer or of a search tells the face', () => {
    equal(told('fault 18 offer 1 0').places, [{ file: 'END.obj', line: 8, field: null, text: 'f 4 2 9' }]);
    equal(told('fault 17 offer 99 0').places, [{ file: 'END.obj', line: null, field: null, text: null }]);
    equal(told('fault 25 search 0 0').places.length, 1);
  }],
  ['each other fault has words, and so have refused pairs', says((core) => {
    equal(words(core, 'fault 11 step 2 1'), 'Point 2 ends outside \u22124,096 to 4,096 in x.');
    holds(words(core, 'fault 8 step 1 0').includes('the map of point 1'), 'the map');
    for (const number of [8, 9, 10, 11, 12, 13, 14, 16, 17, 18, 19, 20, 21, 23, 24, 25]) {
      holds(words(core, `fault ${number} offer 1 1`).endsWith('.'), `fault ${number} has words`);
    }
    equal([1, 1200].map(core.refusedWords), ['1 pair was refused. Of it nothing is said.', '1,200 pairs were refused. Of them nothing is said.']);
  })],
  ['how frames differ', () => {
    const start = { name: 'START.obj', bytes: sheet.bytes };
    const face = explainDifference(readDifference('the frames differ in face 0'), { start, end: sheet });
    equal(face.places.map((p) => [p.file, p.line, p.text]), [['START.obj', 7, 'f 1 2 3'], ['END.obj', 7, 'f 1 2 3']]);
    const points = explainDifference(readDifference('the frames have 36 and 35 points'), { start, end: sheet });
    holds(points.words.includes('36 points') && points.words.includes('second 35'), points.words);
    equal(points.places.map((p) => p.line), [null, null]);
  }],
  ['what cannot be seen gets a sign, and a long line is cut', () => {
    equal(seen('v 0\t0\r'), 'v 0\u24090\u240d');
    equal(seen('x'.repeat(200)).length, 163);
  }],
];
