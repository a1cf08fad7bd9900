// Keeps the worker: starts it from a Blob, asks it, and ends it where a run is to stop. What is asked before the module is
// taken waits for it.

export function makeKeeper(workerText, moduleBytes) {
  let worker = null;
  let asked = new Map();
  let ready = null;
  let next = 0;

  function start() {
    const url = URL.createObjectURL(new Blob([workerText], { type: 'text/javascript' }));
    worker = new Worker(url);
    asked = new Map();
    const mine = asked;
    worker.onmessage = ({ data }) => {
      const question = mine.get(data.id);
      if (!question) return;
      if (data.told) { question.tell(data.told); return; }
      mine.delete(data.id);
      if ('error' in data) question.reject(new Error(data.error));
      else question.resolve(data.answer);
    };
    worker.onerror = (event) => {
      event.preventDefault();
      for (const question of mine.values()) question.reject(new Error(event.message || 'the worker cannot be started'));
      mine.clear();
    };
    ready = send('begin', { module: moduleBytes }, () => {});
    const done = () => URL.revokeObjectURL(url);
    ready.then(done, done);
    return ready;
  }

  function send(call, message, tell) {
    return new Promise((resolve, reject) => {
      const id = next++;
      asked.set(id, { resolve, reject, tell });
      worker.postMessage({ id, call, ...message });
    });
  }

  return {
    start,
    ask: async (call, message, tell = () => {}) => {
      await ready;
      return send(call, message, tell);
    },
    // Ends the worker, whatever it does, and starts a new one. Its questions get no answer.
    stop() {
      worker.terminate();
      return start();
    },
    end: () => worker.terminate(),
  };
}
