// Messages to a worker and back, one at a time. It prints the microseconds, and how many.
'use strict';

const trips = 30_000, worker = new Worker('worker.js');
let begin, count = 0;
worker.onmessage = ({ data }) => {
  if (data === 'ready') begin = performance.now();
  else if (++count === trips) {
    console.log(Math.round((performance.now() - begin) * 1_000), count);
    worker.terminate();
    return;
  }
  worker.postMessage({ isTrip: true, count });
};
