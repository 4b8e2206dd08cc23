// Deliveries through Node's MessagePorts in a Worker that listens at so many of them, of which some
// are busy. The main thread posts 1,000 messages at a time at the busy ones in turn while the Worker
// sleeps; then the Worker wakes, and times how long it takes until the last was delivered. Prints how
// long all took, in microseconds, and how many were delivered.
// usage: node reference.mjs PORTS BUSY COUNT
import { MessageChannel, Worker, isMainThread, parentPort, workerData } from "node:worker_threads";

const TEXT = '{"a":1}';
const A_TIME = 1000;

function postAll(peers, worker, flag, busy, count) {
  let left = count;
  let next = 0;
  let time = 0n;
  worker.on("message", (taken) => {
    if (taken === "asleep") {
      const some = Math.min(left, A_TIME);
      for (let post = 0; post < some; post++) {
        peers[next].postMessage(TEXT);
        next = (next + 1) % busy;
      }
      Atomics.store(flag, 0, 1);
      Atomics.notify(flag, 0);
      left -= some;
      return;
    }
    time += taken;
    if (left > 0) return worker.postMessage(Math.min(left, A_TIME));
    console.log(`${time / 1000n} ${count}`);
    process.exit(0);
  });
  worker.postMessage(Math.min(left, A_TIME));
}

function takeAll(ports, flag) {
  let left = 0;
  let begin = 0n;
  for (const port of ports) {
    port.on("message", () => {
      if (--left === 0) parentPort.postMessage(process.hrtime.bigint() - begin);
    });
  }
  parentPort.on("message", (count) => {
    left = count;
    Atomics.store(flag, 0, 0);
    parentPort.postMessage("asleep");
    Atomics.wait(flag, 0, 0);
    begin = process.hrtime.bigint();
  });
}

if (isMainThread) {
  const [ports, busy, count] = process.argv.slice(2).map(Number);
  const channels = Array.from({ length: ports }, () => new MessageChannel());
  const taken = channels.map(({ port2 }) => port2);
  // The busy ones are the last of those at which the Worker listens.
  const peers = channels.map(({ port1 }) => port1).reverse();
  const flag = new Int32Array(new SharedArrayBuffer(4));
  const worker = new Worker(new URL(import.meta.url), {
    workerData: { ports: taken, flag },
    transferList: taken,
  });
  worker.once("online", () => postAll(peers, worker, flag, busy, count));
} else {
  takeAll(workerData.ports, workerData.flag);
}
