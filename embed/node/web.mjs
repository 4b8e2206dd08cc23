// The web's MessageChannel, MessagePort and BroadcastChannel over Varukoni's hub (HTML Standard,
// "Web messaging"): all of a thread of Node, which is one agent.
//
//     const { port1, port2 } = new MessageChannel();
//     port2.onmessage = (event) => console.log(event.data);
//     port1.postMessage({ a: 1 });
//
// Each delivery is a task of its own (setImmediate). Setting `onmessage` starts a port. A port
// that was sent is another object where it arrives, and is adopted there before its message is
// dispatched.
//
// What can be posted is what a body of the hub can say: null, booleans, whole numbers, strings,
// arrays and plain objects, nested at most 64 deep, as a tree, and at most 262,144 bytes of
// compact JSON. Anything else throws a DataCloneError; so do more than 16 ports, and a transfer
// of anything but a port. The members of an object that arrives stand in byte order of their
// keys. A hub has 65,536 ends, of which a channel takes two and a broadcast channel one: then
// `new` throws an EndsUsedUpError, and `webOver(new Hub())` gives classes over another hub.
import { Hub } from './varukoni.mjs';

const MOST_DEPTH = 64;
const MOST_PORTS = 16;
// All agents of a thread have this origin.
const ORIGIN = 'https://localhost';
const GOT = /^got \d+:\d+ from \d+ (?:with ([\d,]+) )?(.*)$/s;

/** All numbers of ends were used. */
export class EndsUsedUpError extends Error {
  get name() { return 'EndsUsedUpError'; }
}

/** What a message is dispatched as. */
export class MessageEvent extends Event {
  constructor(type, { data = null, ports = [] } = {}) {
    super(type);
    Object.assign(this, { data, ports: Object.freeze([...ports]), origin: '', lastEventId: '' });
    this.source = null;
  }
}

function dataCloneError(what) {
  return new DOMException(`${what} can't be posted`, 'DataCloneError');
}

function isPlain(value) {
  const prototype = Object.getPrototypeOf(value);
  return prototype === null || Object.getPrototypeOf(prototype) === null;
}

// The JSON text of a value that a body can say. `seen` has the objects so far, since a body has no
// object in two places.
function textOf(value, depth, seen) {
  if (value === null || typeof value === 'boolean') return String(value);
  if (typeof value === 'number') {
    const isSaid = Number.isInteger(value) && !Object.is(value, -0)
      && value >= -(2 ** 63) && value < 2 ** 64;
    if (!isSaid) throw dataCloneError(`the number ${Object.is(value, -0) ? '-0' : value}`);
    return BigInt(value).toString();
  }
  if (typeof value === 'string') {
    if (!value.isWellFormed()) throw dataCloneError('half of a surrogate pair');
    return JSON.stringify(value);
  }
  if (typeof value !== 'object') throw dataCloneError(`a value of type ${typeof value}`);
  if (depth === MOST_DEPTH) throw dataCloneError(`what is nested more than ${MOST_DEPTH} deep`);
  if (seen.has(value)) throw dataCloneError('an object in two places');
  seen.add(value);
  if (Array.isArray(value)) return arrayText(value, depth, seen);
  if (!isPlain(value)) throw dataCloneError('an object with a prototype of its own');
  const member = (key) => `${textOf(key, depth, seen)}:${textOf(value[key], depth + 1, seen)}`;
  return `{${Object.keys(value).map(member).join(',')}}`;
}

function arrayText(array, depth, seen) {
  if (Object.keys(array).length !== array.length) {
    throw dataCloneError('an array with holes or properties');
  }
  return `[${array.map((item) => textOf(item, depth + 1, seen)).join(',')}]`;
}

function transferOf(options) {
  if (options === undefined || options === null) return [];
  if (typeof options[Symbol.iterator] === 'function') return [...options];
  return [...(options.transfer ?? [])];
}

// An EventTarget with the properties onmessage, onmessageerror and onclose.
class Target extends EventTarget {
  #kept = new Map();

  handler(type) {
    return this.#kept.get(type)?.call ?? null;
  }

  setHandler(type, call) {
    const kept = this.#kept.get(type);
    if (kept && call) kept.call = call;
    else if (kept) this.removeEventListener(type, kept.listener);
    if (!call) this.#kept.delete(type);
    else if (!kept) this.#keep(type, call);
  }

  #keep(type, call) {
    const kept = { call, listener: (event) => kept.call.call(this, event) };
    this.#kept.set(type, kept);
    this.addEventListener(type, kept.listener);
  }
}

for (const type of ['message', 'messageerror', 'close']) {
  Object.defineProperty(Target.prototype, `on${type}`, {
    configurable: true,
    enumerable: true,
    get() { return this.handler(type); },
    set(call) { this.setHandler(type, typeof call === 'function' ? call : null); },
  });
}

// A hub and the events that are due at its ends.
class Agent {
  // By its end, each port and broadcast channel of the program that is neither closed nor sent.
  targets = new Map();
  // The other port of each port.
  peers = new Map();
  // Of each port that was sent and hasn't arrived, the end at which it waits.
  #waitingAt = new Map();
  // Where something may be there to take, in the order in which it is looked for.
  #ready = new Set();
  #isDue = false;
  #arrived;

  // `arrived` makes the port of an end that was received.
  constructor(hub, arrived) {
    this.hub = hub;
    this.#arrived = arrived;
    if (hub.line(`agent ${ORIGIN}`) !== 'agent 0') throw new Error('the hub has run lines already');
  }

  // The numbers of what a step line has made.
  make(line) {
    const [word, ...ends] = this.hub.line(line).split(' ');
    if (word === 'too-many-ends') throw new EndsUsedUpError('all numbers of ends were used');
    return ends.map(Number);
  }

  wake(end) {
    this.#ready.add(end);
    if (this.#isDue) return;
    this.#isDue = true;
    setImmediate(() => this.#serve());
  }

  // One task, which dispatches one event at most.
  #serve() {
    this.#isDue = false;
    for (const end of this.#ready) {
      this.#ready.delete(end);
      const target = this.targets.get(end);
      const event = target && this.#take(end);
      if (event) {
        this.wake(end);
        target.dispatchEvent(event);
        return;
      }
    }
  }

  // The event of what is taken at an end, or nothing.
  #take(end) {
    let outcome;
    // An end that was adopted leaves an old queue behind in a take of its own.
    do outcome = this.hub.line(`take ${end}`); while (outcome === 'again');
    if (outcome.startsWith('notice ')) return new Event('close');
    const got = GOT.exec(outcome);
    return got && this.#event(got[1] ? got[1].split(',').map(Number) : [], got[2]);
  }

  #event(ends, body) {
    for (const end of ends) this.#waitingAt.delete(end);
    const adopted = ends.map((end) => this.hub.line(`adopt ${end} 0`));
    if (adopted.every((outcome) => outcome.startsWith('adopted '))) {
      const ports = ends.map(this.#arrived);
      return new MessageEvent('message', { data: JSON.parse(body), ports });
    }
    for (const end of ends) this.closePort(end);
    return new MessageEvent('messageerror');
  }

  // What a post is answered. Each hop takes the port's line on to the next queue of its peer.
  post(end, list, body) {
    const line = `post ${end} ${list.join(',') || '-'} ${body}`;
    let outcome = this.hub.line(line);
    for (; outcome === 'moving'; outcome = this.hub.line(line)) this.hub.line(`hop ${end}`);
    if (outcome.startsWith('accepted ')) {
      for (const sent of list) this.#waitingAt.set(sent, this.peers.get(end));
    }
    return outcome;
  }

  closePort(end) {
    this.targets.delete(end);
    // So that its notice finds the newest queue of its peer.
    while (this.hub.line(`hop ${end}`).startsWith('hopped ')) continue;
    this.hub.line(`close ${end}`);
    this.hub.line(`sweep ${end}`);
    this.wake(this.peers.get(end));
    // What waited there is given up, and with it each port that was sent there.
    const lost = [...this.#waitingAt].filter(([, at]) => at === end).map(([port]) => port);
    for (const port of lost) this.#waitingAt.delete(port);
    for (const port of lost) this.closePort(port);
  }
}

/** The three classes over a hub that has run nothing. */
export function webOver(hub) {
  // What only this function knows, and by which a port is made.
  const key = Symbol('port');
  const agent = new Agent(hub, (end) => new MessagePort(key, end));

  class MessagePort extends Target {
    #end;
    #isDetached = false;

    constructor(given, end) {
      if (given !== key) throw new TypeError('a MessagePort is made by `new MessageChannel()`');
      super();
      this.#end = end;
      agent.targets.set(end, this);
    }

    get onmessage() { return super.onmessage; }

    set onmessage(call) {
      super.onmessage = call;
      this.start();
    }

    start() {
      if (this.#isDetached) return;
      hub.line(`start ${this.#end}`);
      agent.wake(this.#end);
    }

    close() {
      if (this.#isDetached) return;
      this.#isDetached = true;
      agent.closePort(this.#end);
    }

    postMessage(message, options) {
      if (arguments.length === 0) throw new TypeError('a message is due');
      const transfer = transferOf(options);
      const body = textOf(message, 0, new Set());
      this.#test(transfer);
      const outcome = this.#isDetached ? 'closed' : this.#post(transfer, body);
      for (const port of transfer) port.#leave(outcome);
    }

    #post(transfer, body) {
      const list = transfer.map((port) => port.#end);
      const outcome = tellLong(() => agent.post(this.#end, list, body));
      agent.wake(agent.peers.get(this.#end));
      return outcome.split(' ')[0];
    }

    // Each is another port, that is neither closed nor sent.
    #test(transfer) {
      const isPort = (port) => typeof port === 'object' && port !== null && #end in port;
      const isGood = (port) => isPort(port) && port !== this && !port.#isDetached;
      if (!transfer.every(isGood)) throw dataCloneError('what is transferred');
      if (new Set(transfer).size < transfer.length) throw dataCloneError('a port twice');
      if (transfer.length > MOST_PORTS) throw dataCloneError(`more than ${MOST_PORTS} ports`);
    }

    // A port that is transferred is detached here. With a message that goes nowhere it is lost.
    #leave(outcome) {
      this.#isDetached = true;
      agent.targets.delete(this.#end);
      if (outcome !== 'accepted') agent.closePort(this.#end);
    }
  }

  class MessageChannel {
    constructor() {
      const ends = agent.make('channel 0');
      agent.peers.set(ends[0], ends[1]).set(ends[1], ends[0]);
      [this.port1, this.port2] = ends.map((end) => new MessagePort(key, end));
    }
  }

  class BroadcastChannel extends Target {
    #end;
    #isClosed = false;

    constructor(name) {
      if (arguments.length === 0) throw new TypeError('a name is due');
      super();
      this.name = String(name);
      [this.#end] = agent.make(`member 0 ${textOf(this.name, 0, new Set())}`);
      agent.targets.set(this.#end, this);
    }

    postMessage(message) {
      if (arguments.length === 0) throw new TypeError('a message is due');
      if (this.#isClosed) throw new DOMException('the channel is closed', 'InvalidStateError');
      const body = textOf(message, 0, new Set());
      if (this.#isClosed) throw new DOMException('the channel is closed', 'InvalidStateError');
      const outcome = tellLong(() => hub.line(`cast ${this.#end} - ${body}`));
      for (const [, end] of outcome.matchAll(/ (\d+) accepted/g)) agent.wake(Number(end));
    }

    close() {
      if (this.#isClosed) return;
      this.#isClosed = true;
      agent.targets.delete(this.#end);
      for (const step of ['close', 'part', 'sweep']) hub.line(`${step} ${this.#end}`);
    }
  }

  return { MessageChannel, MessagePort, BroadcastChannel };
}

// A body whose compact text is too long throws what the web throws.
function tellLong(call) {
  try {
    return call();
  } catch (error) {
    if (error.kind === 'TooLong') throw dataCloneError('a body of more than 262,144 bytes');
    throw error;
  }
}

export const { MessageChannel, MessagePort, BroadcastChannel } = webOver(new Hub());
