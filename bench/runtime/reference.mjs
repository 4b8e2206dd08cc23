// The same as the scripts beside this, by Node's worker_threads: `flood`, `trip` or `ports`.
import { Worker, isMainThread, parentPort } from 'node:worker_threads';
import { fileURLToPath } from 'node:url';

const messages = 300_000, trips = 30_000, channels = 20_000;
let begin;

function told(worker, number) {
  console.log(Math.round((performance.now() - begin) * 1_000), number);
  worker.terminate();
}

const jobs = {
  flood(worker) {
    worker.on('message', (data) => told(worker, data));
    for (let id = 0; id < messages; id++) worker.postMessage({ id, ok: true });
    worker.postMessage({ isLast: true });
  },
  trip(worker) {
    let count = 0;
    const go = () => worker.postMessage({ isTrip: true, count });
    worker.on('message', () => { if (++count === trips) told(worker, count); else go(); });
    go();
  },
  ports(worker) {
    let count = 0, sum = 0;
    for (let id = 0; id < channels; id++) {
      const { port1, port2 } = new MessageChannel();
      port1.onmessage = ({ data }) => {
        sum += data;
        port1.close();
        if (++count === channels) told(worker, sum);
      };
      worker.postMessage({ port: port2, id }, [port2]);
    }
  },
};

if (isMainThread) {
  const worker = new Worker(fileURLToPath(import.meta.url));
  worker.once('message', () => {
    begin = performance.now();
    jobs[process.argv[2]](worker);
  });
} else {
  let count = 0;
  parentPort.on('message', (data) => {
    if (data.port) data.port.postMessage(data.id);
    else if (data.isTrip) parentPort.postMessage(data);
    else if (data.isLast) parentPort.postMessage(count);
    else count++;
  });
  parentPort.postMessage('ready');
}
