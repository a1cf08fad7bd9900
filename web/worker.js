// The worker: takes the module once, then a call at a time. A message is { id, call, .. }; an answer { id, answer } or
// { id, error }; what goes on in a run is { id, told }.
import { makeCore } from './core.js';
import { runJob } from './works.js';

let core = null;

const CALLS = {
  begin: async ({ module }) => { core = await makeCore(module); },
  run: ({ job }, tell) => runJob(core, job, tell),
  inspect: ({ sheet, step, pairs }) => core.inspect(sheet, step, pairs),
  record: ({ start, end }) => core.record(start, end),
  near: ({ sheet, step }) => core.near(sheet, step),
  frames: ({ start, end }) => core.frames(start, end),
  sheet: ({ sheet, step }) => core.sheet(sheet, step),
};

onmessage = async ({ data }) => {
  try {
    const answer = await CALLS[data.call](data, (told) => postMessage({ id: data.id, told }));
    postMessage({ id: data.id, answer });
  } catch (error) {
    postMessage({ id: data.id, error: String(error && error.message ? error.message : error) });
  }
};
