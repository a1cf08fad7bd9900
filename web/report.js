// What a printed report says: its entries, counts, refusals and its other lines.

export const MOST_FAULTS = 1000; // so many faults are kept one by one; all are counted

const number = '(\\d+)';
const LINES = [
  [/^step (\d+) points, (\d+) moved, (\d+) bytes$/, (r, [points, moved, bytes]) => { r.step = { points, moved, bytes }; }],
  [/^near (\d+) faces, (\d+) pairs$/, (r, [faces, pairs]) => { r.near = { faces, pairs }; }],
  [/^(VF|EE) kept (\d+) struck (\d+) shared (\d+) repeated (\d+)$/, (r, [kind, kept, struck, shared, repeated]) => {
    r.counts[kind] = { kept, struck, shared, repeated, tests: kept + struck + shared + repeated };
  }],
  [/^VF (\d+) (\d+) (\d+|-) (\d+|-)$/, (r, [point, face, first, last]) => {
    r.entries.push({ kind: 'VF', point, face, window: windowOf(first, last) });
  }],
  [/^EE (\d+) (\d+) (\d+) (\d+) (\d+|-) (\d+|-)$/, (r, [u, v, k, l, first, last]) => {
    r.entries.push({ kind: 'EE', edges: [[u, v], [k, l]], window: windowOf(first, last) });
  }],
  [/^covered all pairs$/, (r) => { r.ending = { covered: true, refused: 0 }; }],
  [/^refused (\d+) pairs$/, (r, [refused]) => { r.ending = { covered: false, refused }; }],
];
const FAULT = new RegExp(`^fault ${number} (\\w+) ${number} ${number}$`);
const DIFFERENCES = [
  [/^the frames have (\d+) and (\d+) (points|faces)$/, ([first, second, of]) => ({ of, first, second })],
  [/^the frames differ in face (\d+)$/, ([face]) => ({ of: 'face', face })],
];

const windowOf = (first, last) => (first === '-' ? null : { first, last });
const values = (found) => found.slice(1).map((word) => (/^\d+$/.test(word) ? Number(word) : word));

// A fault's line, or null.
export function readFault(line) {
  const found = FAULT.exec(line);
  if (!found) return null;
  const [fault, layer, ...places] = values(found);
  return { line, number: fault, layer, places };
}

// A line about two frames that are not of one sheet, or null.
export function readDifference(line) {
  for (const [form, read] of DIFFERENCES) {
    const found = form.exec(line);
    if (found) return { line, ...read(values(found)) };
  }
  return null;
}

export function readReport(text) {
  const report = {
    step: null, near: null, entries: [], counts: { VF: null, EE: null }, ending: null,
    faults: [], faultsInAll: 0, lastFault: null, difference: null, unknown: [],
  };
  const lines = text.split('\n');
  if (lines[lines.length - 1] === '') lines.pop();
  for (const line of lines) {
    if (line.startsWith('fault ')) {
      const fault = readFault(line);
      if (!fault) { report.unknown.push(line); continue; }
      report.faultsInAll += 1;
      report.lastFault = fault;
      if (report.faults.length < MOST_FAULTS) report.faults.push(fault);
      continue;
    }
    const known = LINES.find(([form]) => form.test(line));
    if (known) { known[1](report, values(known[0].exec(line))); continue; }
    report.difference = readDifference(line);
    if (!report.difference) report.unknown.push(line);
  }
  return report;
}

// Whether what is read of a run that ended well agrees: the entries with the counts, the faults with the refused pairs, and
// both with the lines that two frames alone have.
export function agrees({ kind, report, refused }) {
  const { counts, entries, unknown, faultsInAll, step, near, ending } = report;
  if (unknown.length || !counts.VF || !counts.EE || entries.length !== counts.VF.kept + counts.EE.kept) return false;
  if (faultsInAll !== pairsIn(refused)) return false;
  return kind === 'frames' ? Boolean(step && near && ending) && ending.refused === faultsInAll : !step && !near && !ending;
}

// The text for the eye: whole where it is short, else its front and its back, with a line between that tells how much is
// left out. The back begins late enough to be short, and has all that follows the refused pairs.
export function shownReport(text, longest = 200000, front = 20000, back = 100000) {
  if (text.length <= longest) return text;
  const frontEnd = text.lastIndexOf('\n', front) + 1;
  const backBegin = text.indexOf('\n', text.length - back) + 1;
  const left = text.slice(frontEnd, backBegin).split('\n').length - 1;
  return `${text.slice(0, frontEnd)}[ ${left} more lines: report.txt has all ]\n${text.slice(backBegin)}`;
}

// Pairs in bytes: two numbers of two bytes each, the lower byte first.
export function pairAt(bytes, i) {
  return [bytes[4 * i] | (bytes[4 * i + 1] << 8), bytes[4 * i + 2] | (bytes[4 * i + 3] << 8)];
}

export const pairsIn = (bytes) => Math.floor(bytes.length / 4);
