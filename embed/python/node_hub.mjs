// Does actions on Node's own MessageChannel: a line with a JSON list in, a line with the answer
// out. It reads and writes with no turn of Node's event loop between, in which Node would close
// ports.
import { MessageChannel, receiveMessageOnPort } from 'node:worker_threads';
import { readSync, writeSync } from 'node:fs';

// By their numbers: the ports that a program holds, and those that arrived and wait to be adopted.
let ports = [];
let arrived = new Map();

const actions = {
  begin() {
    for (const port of [...ports, ...arrived.values()]) port?.close();
    ports = [];
    arrived = new Map();
    return 'begun';
  },
  channel() {
    const { port1, port2 } = new MessageChannel();
    ports.push(port1, port2);
    return 'made';
  },
  post(number, listed, body) {
    const sent = listed.map((each) => ports[each]);
    ports[number].postMessage({ body, listed, sent }, sent);
    for (const each of listed) ports[each] = null;
    return 'accepted';
  },
  take(number) {
    const message = receiveMessageOnPort(ports[number])?.message;
    if (!message) return 'empty';
    message.listed.forEach((each, at) => arrived.set(each, message.sent[at]));
    return [message.listed, message.body];
  },
  adopt(number) {
    ports[number] = arrived.get(number);
    arrived.delete(number);
    return ports[number] ? 'adopted' : 'missing';
  },
  close(number) {
    (ports[number] ?? arrived.get(number)).close();
    return 'done';
  },
};

function answer(line) {
  const [name, ...words] = JSON.parse(line);
  writeSync(1, `${JSON.stringify(actions[name](...words))}\n`);
}

const room = Buffer.alloc(1 << 16);
let text = '';
for (let length; (length = readSync(0, room)) > 0;) {
  const lines = (text + room.toString('utf8', 0, length)).split('\n');
  text = lines.pop();
  lines.forEach(answer);
}
actions.begin();
