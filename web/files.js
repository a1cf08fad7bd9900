// Which of the dropped files are what. A file is { name, bytes }; only names decide.

export const WANTED = 'Wanted are two OBJ frames of one sheet, or the files sheet.obj and step.bin of a plan, with its pairs.bin if you have it.';

const STARTS = new Set(['start', 'starts', 'begin', 'beginning', 'before', 'first', 'from', 'initial', 'sheet', 'old', 'prev', 'previous']);
const ENDS = new Set(['end', 'ends', 'after', 'last', 'next', 'to', 'second', 'final', 'target', 'new']);

const baseOf = (name) => name.split('/').pop().toLowerCase();

// The words and the numbers of a name, as `foldStart_07.obj` has fold, start and 7.
export function partsOf(name) {
  const bare = name.replace(/\.obj$/i, '').replace(/([a-z])([A-Z])/g, '$1 $2').toLowerCase();
  return (bare.match(/[a-z]+|\d+/g) || []).map((part) => (/\d/.test(part) ? Number(part) : part));
}

// The order of two names: numbers count as numbers.
function order(a, b) {
  const p = partsOf(a), q = partsOf(b);
  for (let i = 0; i < Math.min(p.length, q.length); i++) {
    if (p[i] === q[i]) continue;
    if (typeof p[i] === typeof q[i]) return p[i] < q[i] ? -1 : 1;
    return typeof p[i] === 'number' ? -1 : 1;
  }
  return p.length - q.length || (a < b ? -1 : a > b ? 1 : 0);
}

// Two frames, the first one first, and how that is known: by a word of a name, or by the names' order.
export function inOrder(a, b) {
  const has = (file, words) => partsOf(file.name).some((part) => words.has(part));
  const side = (file) => Number(has(file, STARTS)) - Number(has(file, ENDS));
  const difference = side(a) - side(b);
  if (difference !== 0) return { start: difference > 0 ? a : b, end: difference > 0 ? b : a, by: 'names' };
  return order(a.name, b.name) <= 0 ? { start: a, end: b, by: 'order' } : { start: b, end: a, by: 'order' };
}

const listed = (names) => (names.length < 2 ? names.join('') : `${names.slice(0, -1).join(', ')} and ${names[names.length - 1]}`);
const NUMBER_WORDS = ['No', 'One', 'Two', 'Three', 'Four', 'Five'];
const some = (n, thing) => `${NUMBER_WORDS[n] || n} ${thing}${n === 1 ? '' : 's'}`;

// What is to be done: { kind: 'frames', start, end, by, unused }, { kind: 'plan', sheet, step, pairs, unused } with files,
// where pairs may be null, or { kind: 'wrong', why }.
export function sortFiles(files) {
  const wrong = (why) => ({ kind: 'wrong', why: `${why} ${WANTED}` });
  if (files.length === 0) return wrong('No file was given.');
  const objs = files.filter((f) => /\.obj$/i.test(f.name));
  const named = (base) => files.filter((f) => baseOf(f.name) === base);
  const steps = named('step.bin');

  if (steps.length > 0) {
    if (steps.length > 1) return wrong(`${some(steps.length, 'file')} are called step.bin.`);
    const sheets = named('sheet.obj');
    const sheet = sheets.length === 1 ? sheets[0] : objs.length === 1 ? objs[0] : null;
    if (!sheet) {
      return wrong(objs.length === 0 ? 'The sheet is missing: step.bin is there, and no OBJ file.'
        : `It is not clear which file is the sheet of step.bin: ${listed(objs.map((f) => f.name))}.`);
    }
    const offered = named('pairs.bin').length ? named('pairs.bin') : named('refused.bin');
    if (offered.length > 1) return wrong(`${some(offered.length, 'file')} are called ${baseOf(offered[0].name)}.`);
    const pairs = offered[0] || null;
    return { kind: 'plan', sheet, step: steps[0], pairs, unused: files.filter((f) => ![sheet, steps[0], pairs].includes(f)) };
  }
  if (objs.length === 2) return { kind: 'frames', ...inOrder(objs[0], objs[1]), unused: files.filter((f) => !objs.includes(f)) };
  if (objs.length === 1) return wrong(`Only one frame was given, ${objs[0].name}.`);
  if (objs.length > 2) return wrong(`${some(objs.length, 'OBJ file')} were given: ${listed(objs.slice(0, 6).map((f) => f.name))}${objs.length > 6 ? ' and more' : ''}.`);
  const names = files.slice(0, 4).map((f) => f.name);
  return wrong(`No OBJ file was given, but ${listed(files.length > 4 ? [...names, 'more'] : names)}.`);
}

// What was taken as what, in words.
export function takenAs(sorted) {
  const rest = sorted.unused.length ? ` Not used: ${listed(sorted.unused.map((f) => f.name))}.` : '';
  if (sorted.kind === 'frames') {
    const why = { names: ' (by their names)', order: ' (by the order of their names)', swapped: ' (swapped)', example: '' }[sorted.by];
    return `First frame: ${sorted.start.name}. Second frame: ${sorted.end.name}${why}.${rest}`;
  }
  const pairs = sorted.pairs ? `Pairs: ${sorted.pairs.name}.` : 'Pairs: none was given, so the near ones are found here.';
  return `Sheet: ${sorted.sheet.name}. Step: ${sorted.step.name}. ${pairs}${rest}`;
}

export const swapped = (sorted) => ({ ...sorted, start: sorted.end, end: sorted.start, by: 'swapped' });

// How much of a file is to be read: what is longer is refused whatever follows. Of a file that has no use nothing is.
export function readLimit(name) {
  if (/\.obj$/i.test(name)) return 65537;
  if (baseOf(name) === 'step.bin') return 14337;
  return ['pairs.bin', 'refused.bin'].includes(baseOf(name)) ? Infinity : 0;
}
