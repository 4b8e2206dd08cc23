// Records what a program puts and gets, on Node or in a browser, as logs of docs/FORMATS.md: by a
// `Recorder`, which a hub of your own calls at its ends, or by classes in place of those of Node or
// the page. These classes test Node's own hub, or the browser's, and not one that is built over it:
// where a broker loses what it should pass on, each hop of its ports is still right. What is wrong
// in the logs says `tools/report logs`.
//
// The recorder of a hub of your own has the calls of record/hublog.py:
//
//   import { Recorder } from './record/hublog.mjs';
//   const log = new Recorder('logs/agent-1.log', 1);          // in place of the path: (text) => ..
//   log.put(17, 0, 0, number, [], body);                      // accepted at end 17, as 0:number
//   log.putting(17, 0, 0, number, [], body, () => push(..));  // taken back where that throws
//   log.got(17, 0, 0, number, [], body);                      // by the name that travelled with it
//   log.adopted(17, 1); log.closed(17); log.putNotice(..); log.gotNotice(..); log.finish();
//
// Each agent has a log of its own, in the order in which it acts: `got` before the message is used,
// `put` directly before the hand-over. Where a function takes the text, which can't be taken back,
// `putting` writes it directly behind. That is as good, where the hand-over doesn't itself deliver:
// logs are compared by names, and not by time.
//
// The classes in place of others:
//
//   import { record } from './record/hublog.mjs';
//   const { MessageChannel, Worker, BroadcastChannel, receiveMessageOnPort } =
//     record({ folder: 'logs' });                            // the main thread of Node
//   const { parentPort, workerData } = record();             // a worker that this Worker began
//   const hub = record({ agent: 1, sink: (text) => .. });    // a page or a worker of a browser
//
// Node: use what `record` gives in place of what node:worker_threads gives. Each thread is an
// agent. Its file in the folder gets each entry before the call goes on. A channel's `port1` and
// `port2` are Node's own ports, with another prototype.
//
// Browsers: the caller numbers the agents (pages, frames and workers), from 0 to 15, and `sink`
// takes the log piece by piece, text that ends with LF. `hub.MessageChannel` and
// `hub.BroadcastChannel` stand for those of the page. `hub.to(target, 2).postMessage(body, list)`
// posts at agent 2, where the target is a worker, a window, a service worker or a client, and
// `hub.listen(target)` reads what comes at `self`, a worker or `navigator.serviceWorker`; call it
// before other listeners are added. One route leads from an agent to another one. `hub.end()` ends
// the log: later posts are refused, and what comes later isn't logged.
//
// How these classes log:
// - End A below 16 is the queue of agent A, and its line L is what agent L posts there; workerData
//   is the first message on it. The other ends are ports and broadcast channels.
// - The name of a message travels with it: the body is wrapped, and a receiver never counts. Each
//   name has epoch 0, and its number counts over the whole life of the line. The counts of a port
//   travel with the port, and `adopted E K` says that it moved K times.
// - A sender doesn't know who hears a cast. It writes `cast E N BODY`, and a hearer, which has a
//   line for each sender, `hears E L SENDER`; record/merge makes `put` entries of them, from the
//   first cast that a hearer got to the last. `meets A` says that agent A is to have a log.
// - `closed E` stands where the program called close(). What Node or a browser delivers behind it
//   is AfterClose.
// - A body that is no body of docs/FORMATS.md (it has fractions, dates, maps, `undefined`, -0, one
//   object twice, more than 64 levels, too many bytes), or that goes with more than 16 ports, is
//   written as {"digest":TEXT}, by which a change is still seen; LIST has the first 16 ports. A
//   port in a body is {"port":PLACE}. Objects of the host are told by their members alone.
//
// Left out: notices, since a close event has no name, and a receiver that counted would hide a
// drop; environment data; ports that are moved to another context; what agents without a recorder
// post, which is passed on as it is. What can't be recorded is refused by an error whose `code`
// says why: NoNode, NoFolder, NoAgent, NoSink, LogExists, TooManyAgents, TooManyEnds, TooManyLines,
// TooDeep, UnknownPort, Ended; those of a Recorder are BadAgent, BadEnd, BadLine, BadEpoch,
// BadNumber, BadPorts, PutTwice, ClosedTwice and Finished.

const MOST_AGENTS = 16;
const MOST_ENDS = 65_536;
const ENDS_OF_AGENT = (MOST_ENDS - MOST_AGENTS) / MOST_AGENTS;
const MOST_LINES = 32;
const MOST_PORTS = 16;
const MOST_NUMBER = 2n ** 62n - 1n;
const MOST_BYTES = 262_144;
const MOST_NESTING = 64;
// What is nested more is refused, before the stack is full.
const MOST_NESTING_READ = 1_000;
const LAST_LINE = 'deliveries\n';
const LONE_SURROGATE = /\p{Surrogate}/u;
// Node gives each message to this method, before any listener.
const DISPATCH = Symbol.for('nodejs.internal.kHybridDispatch');
const encoder = new TextEncoder();

/** A call that can't be recorded. `code` says why. */
export class RecordError extends Error {
  constructor(code, message) {
    super(`${code}: ${message}`);
    this.name = 'RecordError';
    this.code = code;
  }
}

// Bodies

/** The FNV-1a hash of bytes, 64 bits as 16 hexadecimal digits. */
export function hashOf(bytes) {
  let high = 0xcbf29ce4;
  let low = 0x84222325;
  for (const byte of bytes) {
    low = (low ^ byte) >>> 0;
    // The prime is 2^40 + 0x1b3.
    const product = low * 0x1b3;
    high = (Math.imul(high, 0x1b3) + Math.floor(product / 2 ** 32) + (low << 8)) >>> 0;
    low = product >>> 0;
  }
  return [high, low].map((half) => half.toString(16).padStart(8, '0')).join('');
}

function digestOf(bytes) {
  return `{"digest":"fnv1a64 ${hashOf(bytes)} of ${bytes.length} bytes"}`;
}

// Values of JavaScript that are no JSON, by the tag of their class: what a clone keeps of each.
const TEXT_OF = {
  Date: (value) => String(Number(value)),
  RegExp: String,
  Boolean: String,
  Number: (value) => (Object.is(Number(value), -0) ? '-0' : String(value)),
  BigInt: String,
  String: (value) => JSON.stringify(String(value)),
  Error: (value) => JSON.stringify([nameOfError(value), value.message]),
  ArrayBuffer: (value) => hashOf(new Uint8Array(value)),
  SharedArrayBuffer: (value) => String(value.byteLength),
  Map: (value, writer, depth) => writer.list([...value].flat(), depth),
  Set: (value, writer, depth) => writer.list([...value], depth),
};

const ERRORS = [
  'EvalError', 'RangeError', 'ReferenceError', 'SyntaxError', 'TypeError', 'URIError',
];

function nameOfError(error) {
  return ERRORS.includes(error.name) ? error.name : 'Error';
}

function textOfView(view) {
  // What is shared may change on the way.
  if (Object.prototype.toString.call(view.buffer) === '[object SharedArrayBuffer]') {
    return String(view.byteLength);
  }
  return hashOf(new Uint8Array(view.buffer, view.byteOffset, view.byteLength));
}

/** Writes a value as text, which is JSON where the value is a body of docs/FORMATS.md. */
class BodyWriter {
  constructor(ports) {
    this.ports = ports;
    this.met = new Map();
    this.isBody = true;
  }

  noBody(text) {
    this.isBody = false;
    return text;
  }

  value(value, depth) {
    switch (typeof value) {
      case 'boolean': return String(value);
      case 'string': return this.string(value);
      case 'number': return this.number(value);
      case 'object': return value === null ? 'null' : this.object(value, depth);
      default: return this.noBody(`!${typeof value} ${String(value)}`);
    }
  }

  string(text) {
    const json = JSON.stringify(text);
    return LONE_SURROGATE.test(text) ? this.noBody(json) : json;
  }

  number(number) {
    if (Object.is(number, -0)) return this.noBody('-0');
    return Number.isSafeInteger(number) ? String(number) : this.noBody(String(number));
  }

  object(object, depth) {
    const place = this.ports.indexOf(object);
    if (place >= 0) return `{"port":${place}}`;
    if (this.met.has(object)) return this.noBody(`!same ${this.met.get(object)}`);
    this.met.set(object, this.met.size);
    if (depth >= MOST_NESTING_READ) {
      throw new RecordError('TooDeep', `a body is nested more than ${MOST_NESTING_READ} deep`);
    }
    if (Array.isArray(object)) return this.array(object, depth);
    const tag = Object.prototype.toString.call(object).slice(8, -1);
    if (ArrayBuffer.isView(object)) return this.noBody(`!${tag} ${textOfView(object)}`);
    if (Object.hasOwn(TEXT_OF, tag)) {
      return this.noBody(`!${tag} ${TEXT_OF[tag](object, this, depth)}`);
    }
    return this.members(object, Object.keys(object), depth);
  }

  array(array, depth) {
    const keys = Object.keys(array);
    // With as many keys as places, of which the last is the last place, none is a hole.
    const isDense = keys.length === array.length
      && (keys.length === 0 || keys.at(-1) === String(keys.length - 1));
    if (isDense) return this.list(array, depth);
    return this.noBody(`!array ${array.length} ${this.members(array, keys, depth)}`);
  }

  list(items, depth) {
    if (depth >= MOST_NESTING) this.isBody = false;
    return `[${items.map((item) => this.value(item, depth + 1)).join(',')}]`;
  }

  members(object, keys, depth) {
    if (depth >= MOST_NESTING) this.isBody = false;
    const texts = keys.map((key) => `${this.string(key)}:${this.value(object[key], depth + 1)}`);
    return `{${texts.join(',')}}`;
  }
}

/** The text of a body, or of the digest in its place, with the ends that are too many for a list. */
function bodyText(body, ports = [], ends = []) {
  const writer = new BodyWriter(ports);
  const text = writer.value(body, 0);
  if (ends.length > MOST_PORTS) return digestOf(encoder.encode(`${ends} ${text}`));
  const bytes = encoder.encode(text);
  return writer.isBody && bytes.length <= MOST_BYTES ? text : digestOf(bytes);
}

/** `LIST BODY` of an entry. The states are those of the ports, null of one that was sent. */
function contentOf(body, ports, states) {
  const ends = states.filter(Boolean).map((state) => state.end);
  return `${ends.slice(0, MOST_PORTS).join(',') || '-'} ${bodyText(body, ports, ends)}`;
}

// Where a log goes

/** The file of an agent on Node. What a call does is written before it is done. */
class FileJournal {
  constructor(path, fs, isNew) {
    this.fs = fs;
    try {
      this.file = fs.openSync(path, isNew ? 'ax' : 'a');
    } catch (error) {
      if (error.code !== 'EEXIST') throw error;
      throw new RecordError('LogExists', `${path} is there from another run`);
    }
    this.size = fs.fstatSync(this.file).size;
    this.isEnded = false;
  }

  write(text) {
    if (this.isEnded) this.cutBack(this.size - LAST_LINE.length);
    this.append(this.isEnded ? text + LAST_LINE : text);
  }

  append(text) {
    this.fs.writeFileSync(this.file, text);
    this.size += encoder.encode(text).length;
  }

  cutBack(size) {
    this.fs.ftruncateSync(this.file, size);
    this.size = size;
  }

  // Writes a text and acts. Where the act throws, nothing of it was done.
  writeAround(text, act) {
    const { size } = this;
    this.write(text);
    try {
      return act();
    } catch (error) {
      this.cutBack(this.isEnded ? size - LAST_LINE.length : size);
      if (this.isEnded) this.append(LAST_LINE);
      throw error;
    }
  }

  end() {
    if (!this.isEnded) this.append(LAST_LINE);
    this.isEnded = true;
  }
}

/** What a caller of a browser takes. It can't give a text back, so the act comes first. */
class SinkJournal {
  constructor(sink) {
    this.sink = sink;
    this.isEnded = false;
  }

  write(text) {
    if (!this.isEnded) this.sink(text);
  }

  writeAround(text, act) {
    if (this.isEnded) throw new RecordError('Ended', 'a post after the end of the log');
    const given = act();
    this.sink(text);
    return given;
  }

  end() {
    this.write(LAST_LINE);
    this.isEnded = true;
  }
}

function headOf(agent) {
  return `hublog 3\nagent ${agent}\n`;
}

// The recorder of a hub of one's own

function within(code, value, behind) {
  if (Number.isInteger(value) && value >= 0 && value < behind) return value;
  throw new RecordError(code, `${String(value)} is no number below ${behind}`);
}

/** `E L EP:N` of an entry. The number of a message may be a bigint. */
function placeText(end, line, epoch, number) {
  const isNumber = typeof number === 'bigint' || Number.isSafeInteger(number);
  if (!isNumber || number < 0 || number > MOST_NUMBER) {
    throw new RecordError('BadNumber', `${String(number)} is no number below 2^62`);
  }
  within('BadEnd', end, MOST_ENDS);
  within('BadLine', line, MOST_LINES);
  return `${end} ${line} ${within('BadEpoch', epoch, MOST_ENDS)}:${number}`;
}

/** `LIST BODY` of an entry. */
function listedContent(ports, body) {
  const isList = Array.isArray(ports) && ports.length <= MOST_PORTS
    && new Set(ports).size === ports.length;
  if (!isList) throw new RecordError('BadPorts', `no list of at most ${MOST_PORTS} ends`);
  ports.forEach((port) => within('BadPorts', port, MOST_ENDS));
  return `${ports.join(',') || '-'} ${bodyText(body)}`;
}

/** The log of one agent. Each call writes one entry. */
export class Recorder {
  // `where` is the path of a new file on Node, or a function that takes the text piece by piece.
  constructor(where, agent) {
    within('BadAgent', agent, MOST_AGENTS);
    const isSink = typeof where === 'function';
    this.journal = isSink ? new SinkJournal(where) : new FileJournal(where, builtins().fs, true);
    this.isFinished = false;
    this.names = new Set();
    this.closedEnds = new Set();
    this.write(headOf(agent));
  }

  /** A message was accepted on a line of an end, under the name `epoch:number`. */
  put(end, line, epoch, number, ports, body) {
    this.putting(end, line, epoch, number, ports, body, () => {});
  }

  /** A put with its hand-over, `act`. Where that throws, nothing was accepted or logged. */
  putting(end, line, epoch, number, ports, body, act) {
    const place = placeText(end, line, epoch, number);
    return this.writePut(place, listedContent(ports, body), act);
  }

  /** A message was delivered, under the name that travelled with it. */
  got(end, line, epoch, number, ports, body) {
    const place = placeText(end, line, epoch, number);
    this.write(`got ${place} ${listedContent(ports, body)}\n`);
  }

  /** The last message of a line was accepted: it says that nothing more comes there. */
  putNotice(end, line, epoch, number) {
    this.writePut(placeText(end, line, epoch, number), 'notice', () => {});
  }

  /** The last message of a line was delivered. */
  gotNotice(end, line, epoch, number) {
    this.write(`got ${placeText(end, line, epoch, number)} notice\n`);
  }

  /** The agent adopted an end, whose newest queue is `epoch`. */
  adopted(end, epoch) {
    within('BadEnd', end, MOST_ENDS);
    this.write(`adopted ${end} ${within('BadEpoch', epoch, MOST_ENDS)}\n`);
  }

  /** The agent closed an end. */
  closed(end) {
    if (this.closedEnds.has(within('BadEnd', end, MOST_ENDS))) {
      throw new RecordError('ClosedTwice', `end ${end}`);
    }
    this.write(`closed ${end}\n`);
    this.closedEnds.add(end);
  }

  /** Writes the last line: the log is whole. More calls of it do nothing. */
  finish() {
    if (!this.isFinished) this.journal.end();
    this.isFinished = true;
  }

  writePut(place, content, act) {
    this.refuseFinished();
    if (this.names.has(place)) throw new RecordError('PutTwice', place);
    const given = this.journal.writeAround(`put ${place} ${content}\n`, act);
    this.names.add(place);
    return given;
  }

  write(text) {
    this.refuseFinished();
    this.journal.write(text);
  }

  refuseFinished() {
    if (this.isFinished) throw new RecordError('Finished', 'the log is finished');
  }
}

// Names

/** The right to post at an end, and how many messages were posted by it. */
class Line {
  constructor(end, line, next = 0) {
    Object.assign(this, { end, line, next });
  }
}

/** What the recorder knows of a port, and what travels with it. */
class PortState {
  constructor(end, line, moves = 0, isClosed = false) {
    Object.assign(this, { end, line, moves, isClosed });
  }

  // The port as another agent is told of it.
  packed() {
    const { end, line, moves, isClosed } = this;
    return [end, line.end, line.line, line.next, moves, isClosed];
  }

  static adoptedFrom([end, lineEnd, line, next, moves, isClosed]) {
    return new PortState(end, new Line(lineEnd, line, next), moves + 1, isClosed);
  }
}

function isWrapped(payload) {
  return payload !== null && typeof payload === 'object' && Array.isArray(payload.hublog);
}

/** The transfer list of a post, and its second argument, which may be an iterator. */
function transferOf(options) {
  const isIterable = typeof options?.[Symbol.iterator] === 'function';
  const given = isIterable ? [...options] : options;
  return { given, list: isIterable ? given : [...(options?.transfer ?? [])] };
}

/** What the classes of one agent share. `nextEnd` gives it the number of a new end. */
class PortRecorder {
  constructor(agent, journal, nextEnd, MessagePort) {
    Object.assign(this, { agent, journal, nextEnd, MessagePort });
    this.hasDispatch = DISPATCH in MessagePort.prototype;
    this.states = new WeakMap();
    this.known = new WeakSet();
    this.lines = new Map();
    this.channels = new WeakMap();
  }

  // The line by which this agent posts at the queue of another one.
  lineTo(agent) {
    if (!this.lines.has(agent)) {
      this.lines.set(agent, new Line(agent, this.agent));
      this.journal.write(`meets ${agent}\n`);
    }
    return this.lines.get(agent);
  }

  own(port, state) {
    this.states.set(port, state);
    this.known.add(port);
    Object.setPrototypeOf(port, this.Port.prototype);
    if (this.hasDispatch) return;
    port.addEventListener('message', (event) => this.reveal(port, event));
  }

  pair(one, other) {
    const ends = [this.nextEnd(), this.nextEnd()];
    this.own(one, new PortState(ends[0], new Line(ends[1], 0)));
    this.own(other, new PortState(ends[1], new Line(ends[0], 0)));
  }

  // The state of a port that is to be sent, null where it was sent before.
  stateOf(port) {
    if (this.known.has(port)) return this.states.get(port) ?? null;
    throw new RecordError('UnknownPort', 'a port that this recorder has not made is to be sent');
  }

  wrap(name, body, list) {
    const ports = list.filter((item) => item instanceof this.MessagePort);
    const states = ports.map((port) => this.stateOf(port));
    const packed = states.map((state) => state && state.packed());
    return { content: contentOf(body, ports, states), ports, payload: {
      hublog: name, states: packed, ports, body,
    } };
  }

  // Puts a message on a line. `act` posts the wrapped body with the options, or with the list.
  put(line, body, options, act) {
    const { given, list } = transferOf(options);
    const { end, next } = line;
    const { content, ports, payload } = this.wrap([end, line.line, next], body, list);
    const entry = `put ${end} ${line.line} 0:${next} ${content}\n`;
    const answer = this.journal.writeAround(entry, () => act(payload, given, list));
    line.next += 1;
    ports.forEach((port) => this.states.delete(port));
    return answer;
  }

  cast(channel, body, act) {
    const state = this.channels.get(channel);
    const { content, payload } = this.wrap([state.end, state.next], body, []);
    const text = `cast ${state.end} ${state.next} ${content.replace('- ', '')}\n`;
    this.journal.writeAround(text, () => act(payload));
    state.next += 1;
  }

  // Logs what has come, adopts its ports, and gives the body. What isn't wrapped stays as it is.
  open(target, payload) {
    if (!isWrapped(payload)) return payload;
    const { hublog, ports, body } = payload;
    const states = payload.states.map((packed) => packed && PortState.adoptedFrom(packed));
    const number = hublog.at(-1);
    const { place, text } = this.placeOf(target, hublog);
    const adopted = states.filter(Boolean).map(({ end, moves }) => `adopted ${end} ${moves}\n`);
    const content = contentOf(body, ports, states);
    this.journal.write(`${text}got ${place} 0:${number} ${content}\n${adopted.join('')}`);
    ports.forEach((port, at) => states[at] && this.own(port, states[at]));
    return body;
  }

  // `E L` of what has come, and what has to be said before it.
  placeOf(target, name) {
    if (name.length === 3) return { place: `${name[0]} ${name[1]}`, text: '' };
    const { end, heard } = this.channels.get(target);
    const sender = name[0];
    const isNew = !heard.has(sender);
    if (isNew && heard.size === MOST_LINES) {
      throw new RecordError('TooManyLines', `more than ${MOST_LINES} channels post at one`);
    }
    if (isNew) heard.set(sender, heard.size);
    const line = heard.get(sender);
    return { place: `${end} ${line}`, text: isNew ? `hears ${end} ${line} ${sender}\n` : '' };
  }

  // Puts the body in the place of what an event brought. It is the first listener.
  reveal(target, event) {
    if (!isWrapped(event.data)) return;
    const value = this.open(target, event.data);
    Object.defineProperty(event, 'data', { value, enumerable: true, configurable: true });
  }

  join(channel) {
    this.channels.set(channel, { end: this.nextEnd(), next: 0, heard: new Map() });
    channel.addEventListener('message', (event) => this.reveal(channel, event));
  }

  close(target) {
    const state = this.states.get(target) ?? this.channels.get(target);
    if (!state || state.isClosed) return;
    state.isClosed = true;
    this.journal.write(`closed ${state.end}\n`);
  }
}

// The classes in place of those of Node or of the page

function portClass(recorder, MessagePort) {
  return class RecordedPort extends MessagePort {
    postMessage(body, options) {
      const state = recorder.states.get(this);
      if (!state || state.isClosed) return super.postMessage(body, options);
      return recorder.put(state.line, body, options, (payload, given) => (
        super.postMessage(payload, given)
      ));
    }

    close(...words) {
      recorder.close(this);
      return super.close(...words);
    }

    // Never called in a browser.
    [DISPATCH](value, type, event) {
      return super[DISPATCH](type === 'message' ? recorder.open(this, value) : value, type, event);
    }
  };
}

function channelClass(recorder, MessageChannel) {
  return class RecordedChannel extends MessageChannel {
    constructor() {
      super();
      recorder.pair(this.port1, this.port2);
    }
  };
}

function broadcastClass(recorder, BroadcastChannel) {
  return class RecordedBroadcast extends BroadcastChannel {
    constructor(name) {
      super(name);
      recorder.join(this);
    }

    postMessage(body) {
      recorder.cast(this, body, (payload) => super.postMessage(payload));
    }

    close() {
      recorder.close(this);
      super.close();
    }
  };
}

function classesFor(recorder, { MessagePort, MessageChannel, BroadcastChannel }) {
  recorder.Port = portClass(recorder, MessagePort);
  return {
    agent: recorder.agent,
    MessageChannel: channelClass(recorder, MessageChannel),
    BroadcastChannel: broadcastClass(recorder, BroadcastChannel),
    end: () => recorder.journal.end(),
  };
}

function tooManyEnds() {
  return new RecordError('TooManyEnds', 'no number of an end is left');
}

// Node

const AGENTS = 0;
const ENDS = 1;

function builtins() {
  const load = globalThis.process?.getBuiltinModule;
  const threads = load?.('node:worker_threads');
  if (!threads || !(DISPATCH in threads.MessagePort.prototype)) {
    throw new RecordError('NoNode', 'this needs Node 20.16 or later, or a sink');
  }
  return { threads, fs: load('node:fs'), path: load('node:path') };
}

/** What agents of one process share: the folder, and counters of agents and ends. */
class Process {
  constructor(folder, counters, node) {
    Object.assign(this, { folder, counters, node });
  }

  nextEnd() {
    const end = Atomics.add(this.counters, ENDS, 1);
    if (end >= MOST_ENDS) throw tooManyEnds();
    return end;
  }

  // The number of a new agent, whose log is begun: where it never writes, it is seen to be cut.
  newAgent() {
    const agent = Atomics.add(this.counters, AGENTS, 1);
    if (agent >= MOST_AGENTS) {
      Atomics.sub(this.counters, AGENTS, 1);
      throw new RecordError('TooManyAgents', `a log has at most ${MOST_AGENTS} agents`);
    }
    const { fs } = this.node;
    const journal = this.journalOf(agent, true);
    journal.write(headOf(agent));
    fs.closeSync(journal.file);
    return agent;
  }

  journalOf(agent, isNew = false) {
    const name = `agent-${String(agent).padStart(2, '0')}.log`;
    return new FileJournal(this.node.path.join(this.folder, name), this.node.fs, isNew);
  }

  recorderOf(agent) {
    const { MessagePort } = this.node.threads;
    return new PortRecorder(agent, this.journalOf(agent), () => this.nextEnd(), MessagePort);
  }
}

function workerClass(recorder, shared) {
  const begin = (agent, body, options, act) => {
    const { folder, counters } = shared;
    const settings = { folder, counters, agent, parent: recorder.agent };
    const post = (payload) => act({ ...payload, settings });
    try {
      recorder.put(recorder.lineTo(agent), body, options.transferList, post);
    } catch (error) {
      // No such agent began: its log is whole as it stands.
      shared.journalOf(agent).end();
      throw error;
    }
  };
  return class RecordedWorker extends shared.node.threads.Worker {
    constructor(file, options = {}) {
      const agent = shared.newAgent();
      begin(agent, options.workerData, options, (workerData) => (
        super(file, { ...options, workerData })
      ));
      this.agent = agent;
    }

    postMessage(body, options) {
      recorder.put(recorder.lineTo(this.agent), body, options, (payload, given) => (
        super.postMessage(payload, given)
      ));
    }

    emit(type, ...values) {
      if (type === 'message') values[0] = recorder.open(this, values[0]);
      return super.emit(type, ...values);
    }
  };
}

function hubOfNode(recorder, shared) {
  const { threads } = shared.node;
  const hub = classesFor(recorder, threads);
  hub.Worker = workerClass(recorder, shared);
  hub.parentPort = threads.parentPort;
  hub.workerData = threads.workerData;
  hub.receiveMessageOnPort = (port) => {
    const found = threads.receiveMessageOnPort(port);
    return found && { ...found, message: recorder.open(port, found.message) };
  };
  process.on('exit', hub.end);
  return hub;
}

function beginOnNode(folder, node) {
  if (typeof folder !== 'string') throw new RecordError('NoFolder', 'no folder for the logs');
  node.fs.mkdirSync(folder, { recursive: true });
  const counters = new Int32Array(new SharedArrayBuffer(8));
  counters[ENDS] = MOST_AGENTS;
  const shared = new Process(node.path.resolve(folder), counters, node);
  return hubOfNode(shared.recorderOf(shared.newAgent()), shared);
}

// A worker finds in its workerData what the Worker of its parent put there.
function joinOnNode(workerData, node) {
  const { folder, counters, agent, parent } = workerData.settings;
  const shared = new Process(folder, counters, node);
  const recorder = shared.recorderOf(agent);
  const hub = hubOfNode(recorder, shared);
  recorder.own(hub.parentPort, new PortState(agent, recorder.lineTo(parent)));
  hub.workerData = recorder.open(hub.parentPort, workerData);
  return hub;
}

function recordOnNode(options) {
  const node = builtins();
  const { workerData } = node.threads;
  const isBegun = isWrapped(workerData) && workerData.settings;
  return isBegun ? joinOnNode(workerData, node) : beginOnNode(options.folder, node);
}

// Browsers

function recordInBrowser({ agent, sink }) {
  within('NoAgent', agent, MOST_AGENTS);
  if (typeof sink !== 'function') throw new RecordError('NoSink', 'the sink is no function');
  const first = MOST_AGENTS + agent * ENDS_OF_AGENT;
  let count = 0;
  const nextEnd = () => {
    if (count === ENDS_OF_AGENT) throw tooManyEnds();
    count += 1;
    return first + count - 1;
  };
  const recorder = new PortRecorder(agent, new SinkJournal(sink), nextEnd, globalThis.MessagePort);
  const hub = classesFor(recorder, globalThis);
  sink(headOf(agent));
  hub.to = (target, to, settings = {}) => ({
    postMessage(body, transfer = []) {
      recorder.put(recorder.lineTo(to), body, transfer, (payload, _, list) => (
        target.postMessage(payload, { ...settings, transfer: list })
      ));
    },
  });
  hub.listen = (target) => {
    target.addEventListener('message', (event) => recorder.reveal(target, event));
  };
  return hub;
}

let hubOfThread;

/** The hub of this thread, page or worker, which is recorded from the first call on. */
export function record(options = {}) {
  hubOfThread ??= 'sink' in options ? recordInBrowser(options) : recordOnNode(options);
  return hubOfThread;
}
