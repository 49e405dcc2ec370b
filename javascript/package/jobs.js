// SPDX-License-Identifier: ISC
// Calls in workers, so that the thread that asks goes on meanwhile. A worker has one call at a
// time; there are as many as calls at once, up to MOST, and they stay for later calls. Where no
// worker can be made, as where a page's content policy forbids them, calls are done by the thread
// that asks.

const MOST = 4;

const isBytes = (it) => it instanceof Uint8Array;

/** What does a call later: its name, and words whose bytes are nobody else's. */
export function jobsOf(calls, makeWorker) {
  const idle = [], waiting = [];
  let count = 0, isForbidden = makeWorker === null;

  function give(worker, job) {
    worker.job = job;
    worker.ref?.();
    const moved = job.words.filter(isBytes).map((it) => it.buffer);
    worker.post({ call: job.call, words: job.words }, moved);
  }

  // A worker tells that it is ready by its first message, and answers by the others.
  function take(worker, { answer, error, code }) {
    const { job } = worker;
    worker.job = null;
    worker.isReady = true;
    worker.unref?.();
    idle.push(worker);
    if (error) job.reject(code === undefined ? error : Object.assign(error, { code }));
    else job?.resolve(answer);
    next();
  }

  function lose(worker, error) {
    count--;
    if (idle.includes(worker)) idle.splice(idle.indexOf(worker), 1);
    if (!worker.isReady) isForbidden = true;
    worker.job?.reject(error);
    next();
  }

  async function make() {
    const worker = { job: null, isReady: false };
    count++;
    try {
      Object.assign(worker,
        await makeWorker((it) => take(worker, it), (error) => lose(worker, error)));
      worker.post({ module: calls.compiledModule() }, []);
    } catch (error) {
      lose(worker, error);
    }
  }

  function doHere({ call, words, resolve, reject }) {
    try {
      resolve(calls[call](...words));
    } catch (error) {
      reject(error);
    } finally {
      for (const it of words) if (isBytes(it)) it.fill(0);
    }
  }

  function next() {
    while (waiting.length > 0 && idle.length > 0) give(idle.pop(), waiting.shift());
    if (waiting.length === 0) return;
    if (!isForbidden && count < MOST) make();
    else if (isForbidden && count === 0) waiting.splice(0).forEach(doHere);
  }

  return (call, words) => new Promise((resolve, reject) => {
    waiting.push({ call, words, resolve, reject });
    next();
  });
}
