'use strict';

onmessage = ({ data: { port, steps } }) => {
  for (const report of ['one', 'two', 'three']) port.postMessage(report);
  for (;;) {
    try {
      for (;;) Atomics.add(steps, 0, 1);
    } finally {
      port.postMessage('never posted');
    }
  }
};
