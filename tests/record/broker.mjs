// A broker on the main thread drops 2 of 7 messages between two workers, and swaps two. It is
// recorded by classes in place of Node's, or by a Recorder at the broker's own ends.
// usage: node broker.mjs FOLDER classes|recorder

import * as threads from 'node:worker_threads';
import { join } from 'node:path';
import { Recorder, record } from '../../record/hublog.mjs';

const COUNT = 7;
const [folder, way] = process.argv.slice(2);
const hub = way === 'classes' ? record({ folder }) : threads;
const { Worker, parentPort, workerData } = hub;

// The receiver's end at the broker, with one line, that of the sender.
const SENDER = 0;
const RECEIVER = 1;

function recorderOf(agent) {
  const nothing = { put() {}, got() {}, closed() {}, finish() {} };
  return way === 'classes' ? nothing : new Recorder(join(folder, `agent-${agent}.log`), agent);
}

function broker() {
  const begin = (role) => new Worker(new URL(import.meta.url), {
    argv: [folder, way], workerData: { role },
  });
  const [sender, receiver] = ['sender', 'receiver'].map(begin);
  let held;
  sender.on('message', (message) => {
    if (message.number % 3 === 2) return;
    if (message.number === 3) {
      held = message;
      return;
    }
    receiver.postMessage(message);
    if (held) receiver.postMessage(held);
    held = undefined;
    if (message.number === COUNT - 1) [sender, receiver].forEach((it) => it.postMessage('end'));
  });
}

function send() {
  const log = recorderOf(SENDER);
  for (let number = 0; number < COUNT; number += 1) {
    log.put(RECEIVER, 0, 0, number, [], number);
    parentPort.postMessage({ number });
  }
  log.finish();
  parentPort.on('message', () => parentPort.close());
}

function receive() {
  const log = recorderOf(RECEIVER);
  parentPort.on('message', (message) => {
    if (message !== 'end') {
      log.got(RECEIVER, 0, 0, message.number, [], message.number);
      return;
    }
    log.closed(RECEIVER);
    log.finish();
    parentPort.close();
  });
}

if (threads.isMainThread) broker();
else if (workerData.role === 'sender') send();
else receive();
