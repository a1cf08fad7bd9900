// Of which file and line a fault speaks, and how two frames differ. What a fault says in words the module knows.

const OF_TEXT = ['field', 'line', 'sheet']; // the layers that speak of a line of a text
const ENDED = 'The run ended at a fault';
const DIFFER = 'The frames differ';

// The lines of a text, as the program cuts it: by line feeds.
export function linesOf(bytes) {
  return new TextDecoder('utf-8', { ignoreBOM: true }).decode(bytes).split('\n');
}

// The bytes of the line of a sheet's text that a fault speaks of; none where it speaks of no line of the text.
export function lineTold({ layer, places: [number] }, bytes) {
  if (!OF_TEXT.includes(layer) || number === 0) return bytes.subarray(0, 0);
  let begin = 0;
  for (let line = 1; line < number; line++) begin = bytes.indexOf(10, begin) + 1;
  const end = bytes.indexOf(10, begin);
  return bytes.subarray(begin, end < 0 ? bytes.length : end);
}

// The number, from 1, of the line that has the point or the face i; 0 where there is none.
export function lineOf(lines, letter, i) {
  let left = i;
  for (let at = 0; at < lines.length; at++) {
    if (lines[at].startsWith(`${letter} `) && left-- === 0) return at + 1;
  }
  return 0;
}

// What follows the letter and the space, split at its first and its second space.
export function fieldsOf(line) {
  const rest = line.slice(2);
  const first = rest.indexOf(' ');
  const second = first < 0 ? -1 : rest.indexOf(' ', first + 1);
  if (first < 0) return [rest, '', ''];
  if (second < 0) return [rest.slice(0, first), rest.slice(first + 1), ''];
  return [rest.slice(0, first), rest.slice(first + 1, second), rest.slice(second + 1)];
}

// A line for the eye: what cannot be seen gets a sign, also a byte order mark, and a long one is cut.
export function seen(line, longest = 160) {
  const cut = line.length > longest ? `${line.slice(0, longest)} ..` : line;
  return cut.replace(/[\u0000-\u001f\u007f\ufeff]/g, (c) => ({ '\u007f': '\u2421', '\ufeff': '\ufffd' })[c] ?? String.fromCharCode(0x2400 + c.charCodeAt(0)));
}

// Where a field of a line stands: its first place and its length.
export function fieldSpan(line, field) {
  const fields = fieldsOf(line);
  let at = 2;
  for (let i = 1; i < field; i++) at += fields[i - 1].length + 1;
  return [Math.min(at, line.length), fields[field - 1].length];
}

function shownLine(file, lines, number, field) {
  if (!number) return { file: file.name, line: null, field: null, text: null };
  return { file: file.name, line: number, field: field || null, text: lines[number - 1] ?? '' };
}

// Tells a fault that ended a run, with the words that it was given. `sheet` is the file of the text that has it or of the
// plan's sheet, `step` that of the record: { title, words, printed, places: [{ file, line, field, text }] }.
export function explainFault(fault, { sheet, step }) {
  const { words, line: printed } = fault;
  const lines = linesOf(sheet.bytes);
  if (OF_TEXT.includes(fault.layer)) return { title: ENDED, words, printed, places: [shownLine(sheet, lines, ...fault.places)] };
  const places = [];
  if (['step', 'writer'].includes(fault.layer)) {
    if (step) places.push({ file: step.name, line: null, field: null, text: null });
    if (![12, 13, 14].includes(fault.number)) places.push(shownLine(sheet, lines, lineOf(lines, 'v', fault.places[0]), 0));
  } else if ([17, 18, 19].includes(fault.number)) {
    places.push(shownLine(sheet, lines, lineOf(lines, 'f', fault.places[0]), 0));
  } else {
    places.push(shownLine(sheet, lines, 0, 0));
  }
  return { title: ENDED, words, printed, places: places.filter((place, i) => place.line || i === 0) };
}

// Tells how two frames differ.
export function explainDifference(difference, { start, end }) {
  if (difference.of === 'face') {
    const places = [start, end].map((file) => {
      const lines = linesOf(file.bytes);
      return shownLine(file, lines, lineOf(lines, 'f', difference.face), 0);
    });
    return { title: DIFFER, words: `These are no frames of one sheet: face ${difference.face}, counted from 0, is another one.`, printed: difference.line, places };
  }
  const words = `These are no frames of one sheet: the first has ${difference.first} ${difference.of}, the second ${difference.second}.`;
  return { title: DIFFER, words, printed: difference.line, places: [start, end].map(({ name }) => ({ file: name, line: null, field: null, text: null })) };
}
