// Three messages, with a fault between sender and receiver, which is recorded.
// usage: node three.mjs FOLDER ROUTE CHANGE     (ROUTE is port, worker or broadcast)
import { BroadcastChannel, isMainThread, MessagePort, Worker } from 'node:worker_threads';
import { record } from '../../record/hublog.mjs';
import { BODIES, interfere } from './interfere.mjs';

const [folder, route, change] = process.argv.slice(2);
const hub = record({ folder });
let due = BODIES.length - Number(change === 'drop') + Number(change === 'double');

function take() {
  due -= 1;
  if (due === 0) process.exit();
}

const senders = {
  port() {
    const { port1, port2 } = new hub.MessageChannel();
    port2.on('message', take);
    return port1;
  },
  worker: () => new hub.Worker(new URL(import.meta.url), { argv: process.argv.slice(2) }),
  broadcast() {
    new hub.BroadcastChannel(folder).onmessage = take;
    return new hub.BroadcastChannel(folder);
  },
};

if (isMainThread) {
  interfere({ port: MessagePort, worker: Worker, broadcast: BroadcastChannel }[route], change);
  const sender = senders[route]();
  BODIES.forEach((body) => sender.postMessage(body));
} else {
  hub.parentPort.on('message', take);
}
