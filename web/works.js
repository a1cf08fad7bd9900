// The work of a run, off the page's main thread: from files to a report. `tell` is called with what goes on.
import { lineTold } from './faults.js';
import { readReport, pairsIn } from './report.js';

const OF_FRAMES = ['covered', 'refused', 'search fault', 'first fault', 'second fault', 'differ'];
const EMPTY = new Uint8Array(0);

// A job is { kind: 'frames', start, end } or { kind: 'plan', sheet, step, pairs }, where pairs may be null: then the near
// pairs are found first. The result has its faults with their words.
export function runJob(core, job, tell) {
  const result = job.kind === 'frames' ? runFrames(core, job, tell) : runPlan(core, job, tell);
  const text = job.kind === 'plan' ? job.sheet : result.outcome === 'second fault' ? job.end : job.start;
  for (const fault of result.report.faults) fault.words = core.words(fault, lineTold(fault, text));
  const refused = pairsIn(result.refused);
  return { ...result, refusedWords: refused ? core.refusedWords(refused) : '' };
}

export function runFrames(core, { start, end }, tell) {
  tell({ doing: 'Comparing the two frames' });
  const recorded = core.record(start, end);
  let pairs = null;
  if (recorded.step) {
    tell({ doing: sentence(recorded.line), film: core.sheet(start, recorded.step) });
    const near = core.near(start, recorded.step);
    pairs = near.pairs;
    if (pairs) tell({ doing: `${many(pairsIn(pairs))} near pairs. Inspecting them` });
  }
  const account = core.frames(start, end, pairs ? pairsIn(pairs) : 0);
  const refused = account.refusedPairs;
  if (pairsIn(refused) !== account.refused) throw new Error('a refused pair is missing');
  return {
    kind: 'frames', outcome: OF_FRAMES[account.code], text: account.text, report: readReport(account.text), step: recorded.step, pairs, refused, found: true,
  };
}

export function runPlan(core, { sheet, step, pairs }, tell) {
  tell({ doing: 'Reading the sheet and its step' });
  const film = core.sheet(sheet, step);
  if (film.code === 0) tell({ doing: 'The sheet and its step are read', film });
  const found = !pairs;
  let offered = pairs;
  if (film.code === 0 && !offered) {
    tell({ doing: 'Finding the near pairs' });
    const near = core.near(sheet, step);
    if (!near.pairs) {
      return { kind: 'plan', outcome: 'fault', text: near.line, report: readReport(near.line), step, pairs: null, refused: EMPTY, found };
    }
    offered = near.pairs;
  }
  if (film.code === 0) tell({ doing: `Inspecting ${many(pairsIn(offered))} pairs` });
  const told = core.inspect(sheet, step, offered || EMPTY);
  const outcome = told.code !== 0 ? 'fault' : pairsIn(told.refused) ? 'refused' : 'covered';
  return { kind: 'plan', outcome, text: told.text, report: readReport(told.text), step, pairs: offered, refused: told.refused, found };
}

const many = (n) => n.toLocaleString('en');
const sentence = (line) => line.trim().replace(/^./, (letter) => letter.toUpperCase());
