// The tests of the wrapper: of Hub, of the web's classes, and random programs on these classes
// and on Node's own, which have to deliver the same. usage: node tests.mjs PROGRAMS ACTIONS SEED
//
// The last line says how much was compared; the exit status is 1 where something differs.
import assert from 'node:assert/strict';
import * as own from 'node:worker_threads';
import { Worker, isMainThread } from 'node:worker_threads';
import { fileURLToPath } from 'node:url';
import { drawnValue, picked, randomOf } from '../../tests/record/drawing.mjs';
import * as varukoni from './varukoni.mjs';
import * as web from './web.mjs';

const { Hub } = varukoni;
const OPENING = ['agent -', 'channel 0', 'start 1'];
const MOST_HELD = 30;
const NAMES = ['news', 'a "name"', ''];

let checks = 0;

function same(found, wanted) {
  assert.deepStrictEqual(found, wanted);
  checks += 1;
}

function refuses(call, wanted) {
  assert.throws(call, wanted);
  checks += 1;
}

function opened() {
  const hub = new Hub();
  for (const line of OPENING) hub.line(line);
  return hub;
}

// Hub

function testHub() {
  const hub = new Hub();
  same(hub.line('agent -'), 'agent 0');
  const unknown = { name: 'BadLine', kind: 'UnknownStep', message: 'UnknownStep: fly é' };
  refuses(() => hub.line('fly é'), unknown);
  refuses(() => hub.line('post 0 - 1.5'), { name: 'BadLine', kind: 'NotWhole' });
  same(hub.said(), 'NotWhole');
  same(hub.line('channel 0'), 'ends 0 1');
  same(hub.said(), 'ends 0 1');
  refuses(() => hub.line(7), TypeError);
  refuses(() => hub.line(), TypeError);
  refuses(() => Hub.prototype.line.call({}, 'agent -'), TypeError);
  refuses(() => Hub('agent -'), { name: 'TypeError' });
  hub.close();
  hub.close();
  refuses(() => hub.line('agent -'), { name: 'Closed' });
  same(varukoni.steps('agent -\nfly\n'), { status: 2, text: 'line 2: UnknownStep\n' });
  same(varukoni.check(''), { status: 0, text: 'clean\n' });
  same(varukoni.readScript(''), undefined);
  refuses(() => varukoni.readScript('fly\n'), { name: 'BadLine', kind: 'line 1: Syntax' });
}

function testLongLine() {
  const hub = opened();
  const body = `"${'é'.repeat(131_071)}"`;
  same(hub.line(`post 0 - ${body}`), 'accepted 0:0');
  same(hub.line('take 1'), `got 0:0 from 0 ${body}`);
  const over = `post 0 - "${'a'.repeat(262_143)}"`;
  refuses(() => hub.line(over), { name: 'BadLine', kind: 'TooLong' });
}

async function testThreads() {
  const worker = new Worker(fileURLToPath(import.meta.url));
  const answers = await new Promise((resolve, reject) => {
    worker.on('message', resolve);
    worker.on('error', reject);
  });
  await worker.terminate();
  same(answers, ['started', 'agent 0']);
}

// The web's classes

function testValues() {
  const { MessageChannel } = web.webOver(new Hub());
  const { port1, port2 } = new MessageChannel();
  const twice = {};
  const deep = (depth) => (depth === 0 ? 1 : [deep(depth - 1)]);
  const good = [
    null, true, 0, -5, 2 ** 63, -(2 ** 63), 'é😀\n', '', [], {}, [[1], { a: null }], deep(64),
  ];
  for (const value of good) {
    port1.postMessage(value);
    checks += 1;
  }
  const bad = [
    undefined, 1.5, -0, NaN, Infinity, 2 ** 64, 10n, Symbol('a'), () => 1, new Date(), /a/,
    new Map(), new (class A {})(), [, 1], Object.assign([1], { a: 1 }), [twice, twice],
    '\ud800', { a: undefined },
    deep(65), 'a'.repeat(262_143), new Uint8Array(1), port1,
  ];
  const dataClone = { name: 'DataCloneError' };
  for (const value of bad) refuses(() => port1.postMessage(value), dataClone);
  const { port1: other, port2: sent } = new MessageChannel();
  const many = Array.from({ length: 17 }, () => new MessageChannel().port1);
  const closed = new MessageChannel().port1;
  closed.close();
  port1.postMessage(1, [sent]);
  const lists = [[port1], [other, other], [sent], [closed], [new ArrayBuffer(1)], [null], many];
  for (const list of lists) {
    refuses(() => port1.postMessage(1, list), dataClone);
    refuses(() => port1.postMessage(1, { transfer: list }), dataClone);
  }
  refuses(() => port1.postMessage(), TypeError);
  refuses(() => new web.MessagePort(), TypeError);
  port1.close();
  port2.close();
}

function testUsedUp() {
  const { MessageChannel, BroadcastChannel } = web.webOver(new Hub());
  const first = new MessageChannel();
  for (let made = 1; made < 32_768; made += 1) new MessageChannel();
  refuses(() => new MessageChannel(), { name: 'EndsUsedUpError' });
  refuses(() => new BroadcastChannel('a'), { name: 'EndsUsedUpError' });
  first.port1.postMessage('still');
  checks += 1;
}

async function testClosing() {
  const { MessageChannel, BroadcastChannel } = web.webOver(new Hub());
  const seen = [];
  const { port1, port2 } = new MessageChannel();
  const inner = new MessageChannel();
  port2.onclose = () => seen.push('closed');
  inner.port1.onclose = () => seen.push('lost');
  inner.port1.start();
  port2.addEventListener('message', ({ data }) => seen.push(data));
  port1.postMessage('first');
  await settled(seen);
  same(seen.splice(0), []);
  port2.start();
  port1.close();
  await settled(seen);
  same(seen.splice(0), ['first', 'closed']);
  const third = new MessageChannel();
  third.port1.postMessage('with', [inner.port2]);
  third.port2.close();
  await settled(seen);
  same(seen.splice(0), ['lost']);
  const casts = [new BroadcastChannel('a'), new BroadcastChannel('a'), new BroadcastChannel('b')];
  casts.forEach((cast, at) => { cast.onmessage = ({ data }) => seen.push([at, data]); });
  casts[0].postMessage(1);
  casts[0].close();
  refuses(() => casts[0].postMessage(2), { name: 'InvalidStateError' });
  casts[1].postMessage(3);
  await settled(seen);
  same(seen, [[1, 1]]);
}

// Waits until nothing more comes. Node's own ports need some turns of its loop.
async function settled(seen) {
  for (let quiet = 0; quiet < 5;) {
    const before = seen.length;
    await new Promise((resolve) => { setImmediate(resolve); });
    quiet = seen.length === before ? quiet + 1 : 0;
  }
}

// Random programs

class Program {
  constructor(seed, classes, kind) {
    this.random = randomOf(seed);
    this.classes = classes;
    this.mark = `${kind} ${seed}`;
    // By their numbers, the ports that the program holds now.
    this.held = new Map();
    this.peers = [];
    // The ports that are closed or lost, and where each waits that was sent and hasn't arrived.
    this.gone = new Set();
    this.waitingAt = new Map();
    this.members = [];
    this.casts = 0;
    // What was delivered, and where.
    this.seen = [];
  }

  // In an order that doesn't tell which port was served first.
  numbers() {
    return [...this.held.keys()].sort((one, other) => one - other);
  }

  pick(items) {
    return picked(this.random, items);
  }

  channel() {
    if (this.held.size >= MOST_HELD) return;
    const { port1, port2 } = new this.classes.MessageChannel();
    const number = this.peers.length;
    this.peers.push(number + 1, number);
    this.held.set(number, { port: port1 }).set(number + 1, { port: port2 });
  }

  start() {
    const number = this.pick(this.numbers());
    if (number === undefined || this.held.get(number).isStarted) return;
    const kept = this.held.get(number);
    kept.isStarted = true;
    kept.port.onmessage = (event) => this.got(number, event);
  }

  got(number, { data, ports }) {
    this.seen.push([number, data.body, data.listed]);
    data.listed.forEach((each, at) => {
      this.held.set(each, { port: ports[at] });
      this.waitingAt.delete(each);
    });
  }

  post() {
    const number = this.pick(this.numbers());
    if (number === undefined) return;
    // Node closes a port some time after its peer is gone, and then it can't be sent.
    const target = this.peers[number];
    const may = (each) => each !== number && each !== target && !this.gone.has(this.peers[each]);
    const drawn = this.numbers().filter((each) => may(each) && this.random(8) === 0);
    const listed = this.gone.has(target) ? [] : drawn.slice(0, 16);
    const ports = listed.map((each) => this.held.get(each).port);
    this.held.get(number).port.postMessage({ body: drawnValue(this.random), listed }, ports);
    for (const each of listed) {
      this.held.delete(each);
      this.waitingAt.set(each, target);
    }
  }

  close() {
    const number = this.pick(this.numbers());
    if (number === undefined) return;
    this.held.get(number).port.close();
    this.held.delete(number);
    this.lose(number);
  }

  // With a port those are lost that wait there.
  lose(number) {
    this.gone.add(number);
    const lost = [...this.waitingAt].filter(([, at]) => at === number).map(([each]) => each);
    for (const each of lost) {
      this.waitingAt.delete(each);
      this.lose(each);
    }
  }

  member() {
    if (this.members.length >= 8) return;
    const name = this.pick(NAMES);
    const at = `member ${this.casts}.${this.members.length}`;
    const channel = new this.classes.BroadcastChannel(`${this.mark} ${name}`);
    channel.onmessage = ({ data }) => this.seen.push([at, data]);
    this.members.push(channel);
  }

  cast() {
    const channel = this.pick(this.members);
    if (!channel) return;
    this.casts += 1;
    try {
      channel.postMessage(drawnValue(this.random));
    } catch (error) {
      this.seen.push([error.name]);
    }
  }

  part() {
    if (this.members.length > 0) this.pick(this.members).close();
  }

  act() {
    const turn = this.random(100);
    if (turn < 8) this.channel();
    else if (turn < 48) this.post();
    else if (turn < 72) this.start();
    else if (turn < 74) this.close();
    else if (turn < 78) this.member();
    else if (turn < 90) this.cast();
    else if (turn < 91) this.part();
    else return true;
    return false;
  }

  // What was delivered at each port and channel, in order.
  async run(actions) {
    for (let done = 0; done < actions; done += 1) {
      if (this.act()) await settled(this.seen);
    }
    await settled(this.seen);
    for (const { port } of this.held.values()) port.close();
    for (const channel of this.members) channel.close();
    const places = new Map();
    for (const [place, ...what] of this.seen) {
      places.set(place, [...(places.get(place) ?? []), what]);
    }
    return places;
  }
}

async function testPrograms(programs, actions, seed) {
  const total = { programs, deliveries: 0, ports: 0 };
  for (let number = 0; number < programs; number += 1) {
    const drawn = seed * 1_000_003 + number;
    const found = new Program(drawn, web.webOver(new Hub()), 'hub');
    const wanted = new Program(drawn, own, 'node');
    const [places, others] = [await found.run(actions), await wanted.run(actions)];
    assert.deepStrictEqual(places, others, `program ${number} of seed ${seed}`);
    total.deliveries += found.seen.length;
    total.ports += found.seen.reduce((sum, [, , listed]) => sum + (listed?.length ?? 0), 0);
  }
  return total;
}

async function main(words) {
  const [programs, actions, seed] = words.map(Number);
  if (words.length !== 3 || ![programs, actions, seed].every((count) => count > 0)) {
    console.error('usage: node tests.mjs PROGRAMS ACTIONS SEED, the three of them above 0');
    process.exit(2);
  }
  testHub();
  testLongLine();
  await testThreads();
  testValues();
  testUsedUp();
  await testClosing();
  const told = await testPrograms(programs, actions, seed);
  const counts = Object.entries(told).map(([name, count]) => `${count} ${name}`).join(', ');
  console.log(`embed/node: ${checks} checks, ${counts}: 0 differences`);
}

if (isMainThread) {
  await main(process.argv.slice(2));
} else {
  own.parentPort.postMessage([opened().said(), new Hub().line('agent -')]);
}
