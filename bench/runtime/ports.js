// Channels whose one port is sent to a worker, which posts there. It prints the microseconds, and
// the sum of what came back.
'use strict';

const channels = 20_000, worker = new Worker('worker.js');
let begin, count = 0, sum = 0;

function open(id) {
  const { port1, port2 } = new MessageChannel();
  port1.onmessage = ({ data }) => {
    sum += data;
    port1.close();
    if (++count < channels) return;
    console.log(Math.round((performance.now() - begin) * 1_000), sum);
    worker.terminate();
  };
  worker.postMessage({ port: port2, id }, [port2]);
}
worker.onmessage = () => {
  begin = performance.now();
  for (let id = 0; id < channels; id++) open(id);
};
