'use strict';

const again = () => Promise.resolve().then(again);
const endless = {
  loop() { while (true); },
  finally() { try { while (true); } finally { while (true); } },
  wait() { Atomics.wait(new Int32Array(new SharedArrayBuffer(4)), 0, 0); },
  microtasks() { again(); },
  jobs() { for (let at = 0; at < 3; at++) queueMicrotask(endless.loop); },
  regexp() { /(a+)+$/.test(`${'a'.repeat(60)}b`); },
};
onmessage = ({ data: { how, port } }) => {
  port.postMessage('begins');
  endless[how]();
};
