'use strict';

const again = () => Promise.resolve().then(again);
const endless = [
  () => { while (true); },
  () => { try { while (true); } finally { while (true); } },
  () => Atomics.wait(new Int32Array(new SharedArrayBuffer(4)), 0, 0),
  again,
];
onmessage = ({ data: { port, how } }) => {
  port.postMessage('begins');
  endless[how]();
};
