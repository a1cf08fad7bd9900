// The conclusion. Each sentence says what is proved of the run, and no more.

const count = (n, one, many) => `${n.toLocaleString('en')} ${n === 1 ? one : many}`;
export const testsCount = (n) => count(n, 'test', 'tests');
export const pairsCount = (n) => count(n, 'pair', 'pairs');

// What a conclusion rests on:
// whole    the claim is of every two faces of the sheet: the pairs are its near ones, all offered
// faces    how many faces the sheet has
// offered, refused   how many pairs were offered, and how many of these were refused
// listed   how many tests are listed
// source   what the pairs are called where they are the plan's own
// refusedWords   what is said of these
// again    they are the pairs that the run before refused
export function conclusionOf({ whole, faces, offered, refused, refusedWords, listed, source, again = false }) {
  if (whole && faces < 2) {
    return { kind: 'empty', main: 'The sheet has no two faces, so there was nothing to inspect.', more: [], notes: [] };
  }
  const notes = ['Nothing is said of film that passes through film already in the first frame.'];
  const scope = whole ? ofSheet(refused) : ofPairs(offered, refused, source);
  const more = refused ? [refusedWords] : [];
  if (!whole) notes.unshift(again ? 'What the run before says of its other pairs stays.' : 'Of pairs that were not offered nothing is said here.');
  if (!scope) {
    const why = offered === 0 ? 'No pair was offered, so nothing is said.' : 'Every pair was refused, so nothing is said.';
    return { kind: 'nothing', main: why, more: offered === 0 ? [] : more, notes: [] };
  }
  if (listed === 0) {
    return { kind: refused ? 'refused' : 'clear', main: `Nothing is listed: ${scope}, whatever has no point in common stays apart at every fraction of the step.`, more, notes };
  }
  return {
    kind: 'listed',
    main: `${count(listed, 'test is', 'tests are')} listed, where film may touch or not: ${scope}, whatever has no point in common and is not listed stays apart at every fraction of the step.`,
    more, notes,
  };
}

const ofSheet = (refused) => (refused === 0 ? 'of every two faces of the sheet'
  : refused === 1 ? 'of every two faces of the sheet but the refused pair' : 'of every two faces of the sheet but the refused pairs');

function ofPairs(offered, refused, source) {
  if (offered === refused) return null;
  if (refused === 0) return `of each of the ${pairsCount(offered)} of ${source}`.replace('each of the 1 pair', 'the one pair');
  return `of each pair of ${source} that was not refused`;
}

// A time of some milliseconds.
export const timeWords = (ms) => (ms < 1000 ? `${Math.max(1, Math.round(ms))} ms` : `${(ms / 1000).toFixed(1)} s`);

// An entry, in words.
export function entryWords(entry) {
  return entry.kind === 'VF' ? `Point ${entry.point} and face ${entry.face}`
    : `Edge ${entry.edges[0].join('\u2013')} and edge ${entry.edges[1].join('\u2013')}`;
}

export function windowWords({ window }) {
  if (!window) return 'no part any more';
  return window.first === window.last ? `part ${window.first}` : `parts ${window.first} to ${window.last}`;
}

// Where in the step a fraction is. The parts are four, counted from 0.
export const partOf = (fraction) => Math.min(3, Math.floor(4 * fraction));
export const whereWords = (fraction) => `${fraction.toFixed(3)} of the step, part ${partOf(fraction)}`;

// The middle of an entry's window, or null.
export const middleOf = ({ window }) => (window ? (window.first + window.last + 1) / 8 : null);

// The picture, for those who do not see it.
export function pictureWords({ points, faces, fraction, vf, ee, chosen }) {
  if (!faces && !points) return 'No film yet.';
  const marked = vf + ee === 0 ? 'Nothing is marked.'
    : `Marked are ${[vf && count(vf, 'point with its face', 'points with their faces'), ee && count(ee, 'pair of edges', 'pairs of edges')].filter(Boolean).join(' and ')}.`;
  const middle = chosen ? ` In the middle: ${entryWords(chosen).toLowerCase()}, which may touch in ${windowWords(chosen)}.` : '';
  return `The film in three dimensions, ${count(points, 'point', 'points')} and ${count(faces, 'face', 'faces')}, at ${whereWords(fraction)}. ${marked}${middle}`;
}
