// A flood of small objects to a worker. It prints the microseconds, and how many came.
'use strict';

const messages = 300_000, worker = new Worker('worker.js');
let begin;
worker.onmessage = ({ data }) => {
  if (data !== 'ready') {
    console.log(Math.round((performance.now() - begin) * 1_000), data);
    worker.terminate();
    return;
  }
  begin = performance.now();
  for (let id = 0; id < messages; id++) worker.postMessage({ id, ok: true });
  worker.postMessage({ isLast: true });
};
