// Random programs on Node's own channels, one after another in a process, which are recorded.
// usage: node random.mjs FOLDER SEED PROGRAMS
//
// A program has the main thread and two new workers. Where the seed is odd, a worker of the last
// program is terminated. No port is closed in its own listener, and none receives after it was
// closed: Node delivers there what waits.
import { once } from 'node:events';
import { setImmediate as waitTurn } from 'node:timers/promises';
import { record } from '../../record/hublog.mjs';
import { Actor } from './actor.mjs';

const WORKERS = 2;
const [folder, ...numbers] = process.argv.slice(2);
const [seed, programs] = numbers.map(Number);
const hub = record({ folder });

class NodeActor extends Actor {
  sendable() {
    return this.held;
  }

  listen() {
    const port = this.pick(this.held);
    const way = this.random(4);
    if (way === 0) port?.on('message', (message) => this.take(message));
    if (way === 1) port?.once('message', (message) => this.take(message));
    if (way === 2) port?.addEventListener('message', (event) => this.take(event.data));
    if (way === 3 && port) port.onmessage = (event) => this.take(event.data);
  }

  receive() {
    const port = this.pick(this.held);
    this.take(port && hub.receiveMessageOnPort(port)?.message);
  }

  close() {
    const port = this.pick(this.held);
    if (!port || this.random(2)) return;
    this.drop(port);
    port.close();
  }

  actions() {
    return [...super.actions(), 'receive'];
  }
}

const actor = new NodeActor(hub, seed * 32 + hub.agent, waitTurn);

function newWorker() {
  const { port1, port2 } = new hub.MessageChannel();
  actor.take({ ports: [port1] });
  return new hub.Worker(new URL(import.meta.url), {
    argv: process.argv.slice(2), workerData: { ports: [port2] }, transferList: [port2],
  });
}

async function runProgram(isCut) {
  const workers = [];
  let acting = WORKERS;
  while (workers.length < WORKERS) {
    const worker = newWorker();
    workers.push(worker);
    worker.on('message', (message) => {
      if (message === 'done') acting -= 1;
      else actor.take(message);
    });
  }
  await actor.act(workers);
  if (isCut) await workers.shift().terminate();
  while (acting > Number(isCut)) await waitTurn();
  const ended = workers.map((worker) => once(worker, 'exit'));
  workers.forEach((worker) => worker.postMessage('end'));
  await Promise.all(ended);
}

async function main() {
  for (let count = 1; count <= programs; count += 1) {
    await runProgram(count === programs && seed % 2 === 1);
  }
  process.exit();
}

async function work() {
  const { parentPort, workerData } = hub;
  actor.take(workerData);
  parentPort.on('message', (message) => {
    if (message === 'end') process.exit();
    else actor.take(message);
  });
  await actor.act([parentPort]);
  parentPort.postMessage('done');
}

await (hub.agent === 0 ? main() : work());
