// Workers that never end by themselves are terminated. It prints the microseconds of the slowest,
// from the call until its ports are closed, and how many there were.
'use strict';

const workers = 20;
let slowest = 0, count = 0;

function next() {
  const worker = new Worker('endless.js'), { port1, port2 } = new MessageChannel();
  let begin;
  worker.postMessage({ port: port2, how: count % 4 }, [port2]);
  port1.onmessage = () => setTimeout(() => {
    begin = performance.now();
    worker.terminate();
  }, 20);
  port1.onclose = () => {
    slowest = Math.max(slowest, performance.now() - begin);
    if (++count < workers) next();
    else console.log(Math.round(slowest * 1_000), count);
  };
}
next();
