// The random actions of an agent, on Node and in browsers. `hub` is what `record` gave. The schedule
// of the threads isn't drawn.
import { picked, randomOf } from './drawing.mjs';

const ACTIONS = 60;
const MOST_MEMBERS = 4;
const NAMES = ['news', 'other'];

function cycle() {
  const it = {};
  it.it = it;
  return it;
}

// Values within the limits of a log, and past them.
function valuesOf(random) {
  return [
    () => null, () => random(1000), () => -random(9), () => 'text\n"\u2028', () => random(100) / 8,
    () => undefined, () => new Date(random(1e6)), () => new Map([[random(5), [1]]]), () => 12n,
    () => -0, () => Uint8Array.of(random(9), 2), () => '\ud800', () => ({ n: random(9), 'é': [] }),
    () => [[], {}, [true]], () => Object.assign([1, , 3], { more: 1 }), () => new Error('no'),
    () => 'x'.repeat(random(20) ? 9 : 300_000), cycle,
  ];
}

export class Actor {
  // `waitTurn` gives a promise of a later turn of the event loop.
  constructor(hub, seed, waitTurn) {
    this.hub = hub;
    this.waitTurn = waitTurn;
    this.random = randomOf(seed);
    this.values = valuesOf(this.random);
    this.held = [];
    this.members = [];
    this.peers = new Map();
    this.channelName = `${seed >> 5}`;
  }

  pick(items) {
    return picked(this.random, items);
  }

  take(message) {
    for (const port of message?.ports ?? []) this.held.push(port);
  }

  // What may be sent by a port: neither it nor the other port of its channel.
  portsFor(port) {
    const list = this.sendable().filter((it) => it !== port && it !== this.peers.get(port));
    const ports = list.filter(() => this.random(4) === 0).slice(0, this.random(20));
    ports.forEach((it) => this.drop(it));
    return ports;
  }

  drop(port) {
    this.held.splice(this.held.indexOf(port), 1);
  }

  // A port whose other port was closed is refused, and then none of the list is used again.
  postAt(target, port) {
    const ports = this.portsFor(port);
    const message = { value: this.pick(this.values)(), ports };
    try {
      target.postMessage(message, this.random(2) ? ports : { transfer: ports });
    } catch (error) {
      if (error.name !== 'DataCloneError' || ports.length === 0) throw error;
    }
  }

  channel() {
    const { port1, port2 } = new this.hub.MessageChannel();
    this.peers.set(port1, port2).set(port2, port1);
    this.held.push(port1, port2);
  }

  post() {
    const port = this.pick(this.held);
    if (port) this.postAt(port, port);
  }

  refused() {
    const port = this.pick(this.held);
    try {
      port?.postMessage({ value: () => 0 });
    } catch (error) {
      if (error.name !== 'DataCloneError') throw error;
    }
  }

  join() {
    if (this.members.length === MOST_MEMBERS) return;
    const member = new this.hub.BroadcastChannel(`${this.channelName} ${this.pick(NAMES)}`);
    member.onmessage = () => {};
    this.members.push(member);
  }

  cast() {
    this.pick(this.members)?.postMessage(this.pick(this.values)());
  }

  part() {
    if (this.members.length > 1 && this.random(3) === 0) this.members.shift().close();
  }

  actions() {
    return ['channel', 'post', 'refused', 'join', 'cast', 'part', 'listen', 'close'];
  }

  // `targets` are the other agents.
  async act(targets) {
    for (let count = 0; count < ACTIONS; count += 1) {
      if (this.random(6) === 0) this.postAt(this.pick(targets), undefined);
      else this[this.pick(this.actions())]();
      await this.waitTurn();
    }
  }
}
