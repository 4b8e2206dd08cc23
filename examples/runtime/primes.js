// Workers that count primes. The numbers come back in buffers that are transferred, not copied.
'use strict';

const workers = 3, each = 20_000;
const counts = [];

for (let at = 0; at < workers; at++) {
  const worker = new Worker('primes_worker.js', { name: `worker ${at}` });
  worker.onmessage = ({ data: { name, primes } }) => {
    counts[at] = `${name}: ${primes.length} primes, the last is ${primes[primes.length - 1]}`;
    worker.terminate();
    if (Object.keys(counts).length === workers) console.log(counts.join('\n'));
  };
  worker.postMessage({ from: at * each, to: (at + 1) * each });
}
