// A worker that never ends by itself is terminated; what it had posted before isn't lost.
'use strict';

const { port1: reports, port2 } = new MessageChannel();
const steps = new Int32Array(new SharedArrayBuffer(4));
const worker = new Worker('terminate_worker.js');

reports.onmessage = ({ data }) => {
  console.log(`report: ${data}`);
  if (data !== 'three') return;
  setTimeout(() => {
    console.log(`it counts: ${Atomics.load(steps, 0) > 0}`);
    worker.terminate();
  }, 50);
};
reports.onclose = () => console.log('the port of the worker is closed');
worker.postMessage({ port: port2, steps }, [port2]);
