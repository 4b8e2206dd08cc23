// The classes of the web that scripts see, over the functions of `native`. It gives back the
// functions that the runtime calls. Internal slots are private fields.
(function (native, isWorker, paths, ownUrl, ownName) {
'use strict';
const { defineProperty, freeze, getOwnPropertyNames, getOwnPropertyDescriptor } = Object;
const { apply } = Reflect, { isArray } = Array;
const then = Function.prototype.call.bind(Promise.prototype.then), resolved = Promise.resolve();
const isObject = (it) => typeof it === 'object' && it !== null || typeof it === 'function';
// Each is compiled by itself, or the engine would see one place for the slots of all classes.
const slots = () => Function(`return class extends function (object) { return object; } {
  #state;
  constructor(object, state) { super(object); this.#state = state; }
  static of(object) { return object.#state; }
  static set(object, state) { return object.#state = state; }
  static has(object) { return Object(object) === object && #state in object; }
}`)();
const [Targets, Exceptions, Channels, Broadcasts, Places] = Array.from('12345', slots);
const { stateOf: eventState } = native;
const define = (name, value) =>
  defineProperty(globalThis, name, { value, writable: true, configurable: true });
const add = (made, members) => {
  for (const name of getOwnPropertyNames(members))
    defineProperty(made.prototype, name, getOwnPropertyDescriptor(members, name));
};
const reads = (made, of, names) => {
  for (const name of names) add(made, { get [name]() { return of(this)[name]; } });
};
// Makes a class what Web IDL says: its members can be enumerated, and its objects tell its name.
function expose(made, constants = {}) {
  for (const name of getOwnPropertyNames(made.prototype))
    if (name !== 'constructor') defineProperty(made.prototype, name, { enumerable: true });
  for (const name in constants)
    for (const object of [made, made.prototype])
      defineProperty(object, name, { value: constants[name], enumerable: true });
  defineProperty(made.prototype, Symbol.toStringTag, { value: made.name, configurable: true });
  define(made.name, made);
}

// Conversions of Web IDL
const refuse = (why) => { throw new TypeError(why); };
const illegal = () => refuse('Illegal constructor');
const needs = ({ length }, count) => length >= count || refuse(`${length} of ${count} words`);
function options(it) {
  if (it === undefined || it === null) return {};
  return isObject(it) ? it : refuse("the options aren't an object");
}
function sequence(it, isRight, what) {
  const method = isObject(it) ? it[Symbol.iterator] : undefined;
  if (typeof method !== 'function') refuse("a list can't be iterated");
  const list = [...{ [Symbol.iterator]: () => apply(method, it, []) }];
  return list.every(isRight) ? list : refuse(`something in a list is no ${what}`);
}

// DOMException (Web IDL, 2.8.1)
// By their codes: names of errors, of which the constants are made. A marked one has no name today.
const names = ('IndexSize *DomstringSize HierarchyRequest WrongDocument InvalidCharacter '
  + '*NoDataAllowed NoModificationAllowed NotFound NotSupported InuseAttribute InvalidState Syntax '
  + 'InvalidModification Namespace InvalidAccess *Validation TypeMismatch Security Network Abort '
  + 'UrlMismatch QuotaExceeded Timeout InvalidNodeType DataClone').split(' ');
const codes = names.map((it) => `${it.replace('Inuse', 'InUse').replace('Url', 'URL')}Error`);
const constant = (it) => `${it.replace('*', '').replace(/\B[A-Z]/g, '_$&').toUpperCase()}_ERR`;
class DOMException {
  constructor(message = '', name = 'Error') {
    const made = native.create(new.target.prototype);
    const stack = { value: new Error().stack, writable: true, configurable: true };
    new Exceptions(made, { message: `${message}`, name: `${name}` });
    return defineProperty(made, 'stack', stack);
  }
  get code() { return codes.indexOf(Exceptions.of(this).name) + 1; }
}
reads(DOMException, Exceptions.of, ['name', 'message']);
Object.setPrototypeOf(DOMException.prototype, Error.prototype);
expose(DOMException, Object.fromEntries(names.map((it, at) => [constant(it), at + 1])));

// Events (DOM, 2.2)
const noPorts = freeze([]);
// An object of the engine has 16 properties of its own at most, and further ones elsewhere.
const stateOf = (type, isTrusted, cancelable, data, origin, ports) => ({
  type, isTrusted, cancelable, timeStamp: undefined, target: null, bubbles: false, composed: false,
  defaultPrevented: false, stops: 0, isDispatched: false, isPassive: false,
  data, origin, lastEventId: '', source: null, ports,
});
class Event {
  constructor(type, init = undefined) {
    needs(arguments, 1);
    const { bubbles, cancelable, composed } = options(init);
    const state = stateOf(`${type}`, false, !!cancelable, null, '', noPorts);
    Object.assign(state, { bubbles: !!bubbles, composed: !!composed, timeStamp: native.now() });
    return native.create(new.target.prototype, state);
  }
  get timeStamp() { return eventState(this).timeStamp ??= native.now(); }
  get currentTarget() { return eventState(this).isDispatched ? eventState(this).target : null; }
  get eventPhase() { return eventState(this).isDispatched ? 2 : 0; }
  composedPath() { return eventState(this).isDispatched ? [eventState(this).target] : []; }
  stopPropagation() { eventState(this).stops ||= 1; }
  stopImmediatePropagation() { eventState(this).stops = 2; }
  preventDefault() {
    const state = eventState(this);
    if (state.cancelable && !state.isPassive) state.defaultPrevented = true;
  }
}
reads(Event, eventState, ['type', 'target', 'bubbles', 'cancelable', 'defaultPrevented', 'composed',
  'isTrusted']);
expose(Event, { NONE: 0, CAPTURING_PHASE: 1, AT_TARGET: 2, BUBBLING_PHASE: 3 });
// A class of events, with what its constructor makes of its options.
function eventClass(name, count, take, members) {
  const made = { [name]: class extends Event {
    constructor(type, init = undefined) {
      needs(arguments, count);
      super(type, init);
      Object.assign(eventState(this), take(options(init)));
    }
  } }[name];
  if (count > 1) defineProperty(made, 'length', { value: count });
  reads(made, eventState, members);
  expose(made);
  return made;
}
eventClass('CustomEvent', 1, ({ detail = null }) => ({ detail }), ['detail']);
const ErrorEvent = eventClass('ErrorEvent', 1,
  ({ colno = 0, error, filename = '', lineno = 0, message = '' }) => ({
    colno: colno >>> 0, error, filename: `${filename}`, lineno: lineno >>> 0, message: `${message}`,
  }), ['message', 'filename', 'lineno', 'colno', 'error']);
const PromiseRejectionEvent = eventClass('PromiseRejectionEvent', 2, (init) => (
  isObject(init.promise) ? { promise: init.promise, reason: init.reason } : refuse('no promise')
), ['promise', 'reason']);
const isPort = (it) => Targets.has(it) && it instanceof MessagePort;
const sourceOf = (it) => (it === null || it === globalThis || isPort(it) ? it
  : refuse('the source is no MessagePort'));
const MessageEvent = eventClass('MessageEvent', 1,
  ({ data = null, lastEventId = '', origin = '', ports = [], source = null }) => ({
    data, lastEventId: `${lastEventId}`, origin: `${origin}`, source: sourceOf(source),
    ports: freeze(sequence(ports, isPort, 'MessagePort')),
  }), ['data', 'origin', 'lastEventId', 'source', 'ports']);

// Event targets (DOM, 2.7)
// A port has no state before somebody listens to it.
const newTarget = (watch = null) => ({ records: [], watch });
const target = (object, watch) => new Targets(object, newTarget(watch));
const recordsOf = (object) => Targets.of(object)?.records ?? [];
const setRecords = (object, type, records) => {
  const state = Targets.of(object) ?? Targets.set(object, newTarget()), { watch } = state;
  state.records = records;
  if (watch !== null && type === 'message') watch(object, records.some((it) => it.type === type));
};
// Those that capture stand first, as they are called first.
function listen(object, record) {
  const records = recordsOf(object), isRest = (it) => !it.isCapture;
  setRecords(object, record.type, isRest(record) ? [...records, record]
    : [...records.filter((it) => !isRest(it)), record, ...records.filter(isRest)]);
}
const recordOf = (type, callback, isHandler, isCapture, isOnce, isPassive) =>
  ({ type, callback, isHandler, isCapture, isOnce, isPassive, isRemoved: false });
function unlisten(object, record) {
  record.isRemoved = true;
  setRecords(object, record.type, recordsOf(object).filter((it) => it !== record));
}
const found = (object, type, callback, isCapture) => recordsOf(object).find((it) =>
  it.type === type && it.callback === callback && it.isCapture === isCapture && !it.isHandler);
class EventTarget {
  constructor() { return target(native.create(new.target.prototype)); }
  addEventListener(type, callback, flags = undefined) {
    needs(arguments, 2);
    const object = this ?? globalThis, name = `${type}`;
    const { capture, once, passive } = isObject(flags) ? flags : { capture: flags };
    if (callback === undefined || callback === null) return;
    if (!isObject(callback)) refuse('the listener is no object');
    const record = recordOf(name, callback, false, !!capture, !!once, !!passive);
    if (!found(object, name, callback, !!capture)) listen(object, record);
  }
  removeEventListener(type, callback, flags = undefined) {
    needs(arguments, 2);
    const object = this ?? globalThis, isCapture = !!(isObject(flags) ? flags.capture : flags);
    const record = found(object, `${type}`, callback, isCapture);
    if (record) unlisten(object, record);
  }
  dispatchEvent(event) {
    needs(arguments, 1);
    const object = this ?? globalThis, state = eventState(event);
    if (state.isDispatched) throw new DOMException('it is being dispatched', 'InvalidStateError');
    state.isTrusted = false;
    return fire(object, event, state, false);
  }
}
expose(EventTarget);
// Fires an event at a target, and answers whether nobody has canceled it. Between two listeners of
// a task stands a checkpoint of microtasks.
function fire(object, event, state, isTask) {
  const records = state.stops > 0 ? [] : recordsOf(object);
  let isBehind = false;
  state.target = object;
  state.isDispatched = true;
  for (let at = 0; at < records.length && state.stops < 2; at++) {
    if (records[at].isRemoved || records[at].type !== state.type) continue;
    if (isTask && isBehind) native.checkpoint();
    isBehind = true;
    callListener(object, records[at], event, state);
  }
  state.isDispatched = false;
  state.stops = 0;
  return !state.defaultPrevented;
}
function callListener(object, record, event, state) {
  const { callback } = record;
  if (record.isOnce) unlisten(object, record);
  state.isPassive = record.isPassive;
  try {
    if (record.isHandler) handle(object, callback, event, state);
    else if (typeof callback === 'function') apply(callback, object, [event]);
    else apply(callback.handleEvent, callback, [event]);
  } catch (error) {
    report(error);
  }
  state.isPassive = false;
}
// The event handler processing algorithm (HTML, 8.1.8.1).
function handle(object, callback, event, state) {
  if (typeof callback !== 'function') return;
  const isError = state.type === 'error' && object === globalThis && 'lineno' in state;
  const words = isError
    ? [state.message, state.filename, state.lineno, state.colno, state.error] : [event];
  if (apply(callback, object, words) === isError && state.cancelable) state.defaultPrevented = true;
}
// Event handler attributes. A handler has the place in the order that its first setting gave it.
const handlerOf = (on, type) => recordsOf(on).find((it) => it.isHandler && it.type === type);
function handlers(made, types, onSet = () => {}) {
  for (const type of types) {
    const key = `on${type}`;
    add(made, {
      get [key]() { return handlerOf(this ?? globalThis, type)?.callback ?? null; },
      set [key](value) {
        const object = this ?? globalThis, before = handlerOf(object, type);
        if (!isObject(value)) before && unlisten(object, before);
        else if (before) before.callback = value;
        else listen(object, recordOf(type, value, true, false, false, false));
        onSet(object, type);
      },
    });
  }
}

// Channels (HTML, 9.4 and 9.5)
class MessagePort extends EventTarget { constructor() { illegal(); super(); } }
add(MessagePort, native.port);
handlers(MessagePort, ['message', 'messageerror', 'close'], (port, type) => {
  if (type === 'message') apply(native.port.start, port, []);
});
expose(MessagePort);
class MessageChannel {
  constructor() {
    return new Channels(native.create(new.target.prototype), native.openChannel());
  }
  get port1() { return Channels.of(this)[0]; }
  get port2() { return Channels.of(this)[1]; }
}
expose(MessageChannel);
class BroadcastChannel extends EventTarget {
  constructor(name) {
    needs(arguments, 1);
    const text = `${name}`, made = native.joinChannel(new.target.prototype, text);
    return new Broadcasts(target(made, native.listenChannel), { name: text, isClosed: false });
    super();
  }
  postMessage(message) {
    const { isClosed } = Broadcasts.of(this);
    needs(arguments, 1);
    if (isClosed) throw new DOMException('the channel is closed', 'InvalidStateError');
    native.postChannel(this, message);
  }
  close() { native.leaveChannel(this, Broadcasts.of(this).isClosed = true); }
}
reads(BroadcastChannel, Broadcasts.of, ['name']);
handlers(BroadcastChannel, ['message', 'messageerror']);
expose(BroadcastChannel);

// Workers (HTML, 10.2)
class Worker extends EventTarget {
  constructor(scriptURL, init = undefined) {
    needs(arguments, 1);
    const { name = '', type = 'classic' } = options(init), words = [`${type}`, `${name}`];
    const { path, href } = resolve(`${scriptURL}`);
    if (words[0] !== 'classic') refuse(`a worker of type '${words[0]}' is left out`);
    return target(native.startWorker(new.target.prototype, path, href, words[1]));
    super();
  }
  terminate() { apply(native.terminate, this, []); }
}
add(Worker, { postMessage: native.port.postMessage });
handlers(Worker, ['message', 'messageerror', 'error']);
expose(Worker);

// Reporting errors (HTML, 8.1.4.6 and 8.1.4.7)
// The lines of a stack, without those of this file.
const framesOf = (stack) => `${stack}`.split('\n').filter((it) => it && !it.includes('@varukoni:'));
function textOf(error) {
  if (!(error instanceof Error)) return inspect(error);
  const frames = framesOf(error.stack).map((it) => `\n    at ${it.replace('@', ' ').trim()}`);
  return `${error.name}: ${error.message}${frames.join('')}`;
}
function placeOf(error) {
  const isError = error instanceof Error, { fileName, lineNumber, columnNumber } = Object(error);
  const message = isError ? `${error.name}: ${error.message}` : `uncaught ${inspect(error)}`;
  if (isError && fileName && !fileName.startsWith('varukoni:'))
    return { message, filename: fileName, lineno: lineNumber, colno: columnNumber };
  const [, filename = location.href, lineno = 0, colno = 0] =
    (isError && /@(.*):(\d+):(\d+)$/.exec(framesOf(error.stack)[0])) || [];
  return { message, filename, lineno: +lineno, colno: +colno };
}
const lineOf = ({ filename, lineno, colno }, what, error) =>
  `${filename}:${lineno}:${colno}: ${what} ${textOf(error)}`;
// An error that nobody handles here is told to the creator of the worker, and at last on standard
// error.
function tell(place, text, isMissing = false) {
  if (isWorker) return native.tellCreator({ ...place, text, isMissing });
  native.print(true, text);
  native.fail();
}
function trusted(type, of, made, isCancelable = false) {
  const state = Object.assign(stateOf(type, true, isCancelable, null, '', noPorts), made);
  return [native.create(of.prototype, state), state];
}
let isReporting = false;
function report(error, place = placeOf(error), text = lineOf(place, 'uncaught', error)) {
  if (isReporting) return tell(place, text);
  isReporting = true;
  try {
    const [event, state] = trusted('error', ErrorEvent, { ...place, error }, true);
    if (fire(globalThis, event, state, false)) tell(place, text);
  } finally {
    isReporting = false;
  }
}
// Promises by what happened to them since the last checkpoint; those that were told of.
let tracked = new Map();
const told = new WeakSet();
function track(promise, reason, isHandled) {
  if (!isHandled) tracked.set(promise, { reason, type: 'unhandledrejection' });
  else if (told.delete(promise)) tracked.set(promise, { reason, type: 'rejectionhandled' });
  else tracked.delete(promise);
}
function rejections() {
  const before = tracked;
  tracked = new Map();
  for (const [promise, { reason, type }] of before) {
    const isNew = type === 'unhandledrejection';
    const [event, state] = trusted(type, PromiseRejectionEvent, { promise, reason }, isNew);
    if (isNew) told.add(promise);
    if (!fire(globalThis, event, state, true) || !isNew) continue;
    tell(placeOf(reason), lineOf(placeOf(reason), 'unhandled rejection:', reason));
  }
}
// What the console prints: texts as they are, and objects as JSON.
function inspect(it) {
  if (it instanceof Error) return textOf(it);
  if (!isObject(it) || typeof it === 'function') return Object.is(it, -0) ? '-0' : String(it);
  const isList = (it) => it instanceof Map || it instanceof Set || ArrayBuffer.isView(it);
  const shown = (key, value) => (isList(value) ? [...value] : value);
  try { return JSON.stringify(it, shown); } catch { return String(it); }
}
define('console', Object.fromEntries(['log', 'info', 'debug', 'warn', 'error'].map((name, at) =>
  [name, (...words) => native.print(at > 2, words.map((it) => inspect(it)).join(' '))])));

// Timers (HTML, 8.6)
const timers = new Map();
let order = [], lastTimer = 0, nesting = 0;
function schedule(timer) {
  const wait = Math.max(Number(timer.delay) | 0, timer.nesting > 5 ? 4 : 0);
  timer.end = native.now() + wait;
  const after = order.findIndex((it) => it.end > timer.end);
  order.splice(after < 0 ? order.length : after, 0, timer);
  native.wake(order[0].end);
}
function setTimer(words, isRepeated) {
  needs(words, 1);
  const [handler, delay = 0, ...given] = words, id = ++lastTimer;
  const callback = typeof handler === 'function' ? handler : `${handler}`;
  const timer = { id, callback, delay, words: given, isRepeated, nesting: nesting + 1 };
  timers.set(id, timer);
  schedule(timer);
  return id;
}
function clearTimer(id) {
  const timer = timers.get(Number(id) | 0);
  if (timer === undefined) return;
  timers.delete(timer.id);
  order = order.filter((it) => it !== timer);
  native.wake(order[0]?.end);
}
// Calls the timer that ends first.
function runTimer() {
  const timer = order.shift();
  nesting = timer.nesting++;
  if (!timer.isRepeated) timers.delete(timer.id);
  try {
    if (typeof timer.callback === 'function') apply(timer.callback, globalThis, timer.words);
    else (0, eval)(timer.callback);
  } catch (error) {
    report(error);
  }
  nesting = 0;
  if (timers.has(timer.id)) schedule(timer);
  else native.wake(order[0]?.end);
}

// The global scope (HTML, 8.2, 8.7 and 10.2.1)
const encoded = (path) => path.replace(/[^\w\-.~\/!$&'()*+,;=:@%]/gu, encodeURIComponent);
// What a text means as a URL here: its href and, where it is a file's, the path.
function resolve(text) {
  const [, scheme, rest = text.trim()] = /^\s*([a-z][a-z\d+.-]*):(.*)$/is.exec(text) ?? [];
  if (scheme !== undefined && scheme.toLowerCase() !== 'file') {
    if (/^(\/\/)?[^\s<>\\^`{|}[\]]+$/.test(rest)) return { href: text, path: '' };
    throw new DOMException(`'${text}' is no URL`, 'SyntaxError');
  }
  const [, path, tail] = /^([^?#]*)(.*)$/s.exec(scheme ? rest.replace(/^\/\/[^\/]*/, '') : rest);
  const base = location.pathname, parts = [];
  const from = path.startsWith('/') ? path : path && base.replace(/[^\/]*$/, path) || base;
  for (const part of from.split('/').slice(1)) {
    if (part === '..') parts.pop();
    else if (part !== '.') parts.push(part);
  }
  const pathname = encoded(`/${parts.join('/')}`);
  return { href: `file://${pathname}${tail}`, path: decodeURIComponent(pathname) };
}
const own = paths[paths.length - 1], url = ownUrl || `file://${encoded(own.replace(/%/g, '%25'))}`;
const [, protocol, pathname, search = '', hash = ''] =
  /^([^:]+:)(?:\/\/)?([^?#]*)(\?[^#]*)?(#.*)?$/s.exec(url);
const Location = class { toString() { return this.href; } };
const location = new Places(native.create(Location.prototype), {
  href: url, protocol, host: '', hostname: '', port: '', pathname, search, hash, origin: 'null',
});
defineProperty(Location, 'name', { value: isWorker ? 'WorkerLocation' : 'Location' });
reads(Location, Places.of, Object.keys(Places.of(location)));
expose(Location);
class WorkerGlobalScope extends EventTarget {
  constructor() { illegal(); super(); }
  get self() { return globalThis; }
  importScripts(...urls) {
    for (const { path, href } of urls.map((it) => resolve(`${it}`)))
      if (!native.load(path, href)) throw new DOMException(`no script at ${href}`, 'NetworkError');
  }
}
class DedicatedWorkerGlobalScope extends WorkerGlobalScope {
  constructor() { illegal(); super(); }
  get name() { return ownName; }
  set name(value) { define('name', value); }
  close() { native.closeScope(); }
}
class Window extends EventTarget {
  constructor() { illegal(); super(); }
  close() { native.closeScope(); }
}
const top = isWorker ? WorkerGlobalScope : Window;
const scope = isWorker ? DedicatedWorkerGlobalScope : Window;
add(top, {
  get location() { return location; }, get origin() { return 'null'; },
  setTimeout(handler, ...words) { return setTimer(arguments, false); },
  setInterval(handler, ...words) { return setTimer(arguments, true); },
  clearTimeout(id = 0) { clearTimer(id); }, clearInterval(id = 0) { clearTimer(id); },
  queueMicrotask(callback) {
    if (typeof callback !== 'function') refuse('the callback is no function');
    then(resolved, () => { try { callback(); } catch (error) { report(error); } });
  },
  structuredClone(value, init = undefined) {
    needs(arguments, 1);
    return native.clone(value, options(init).transfer);
  },
  reportError(error) { report(needs(arguments, 1) && error); },
});
handlers(top, ['error', 'unhandledrejection', 'rejectionhandled']);
expose(top);
if (isWorker) {
  add(scope, { postMessage: native.port.postMessage });
  handlers(scope, ['message', 'messageerror']);
  expose(scope);
} else {
  for (const name of ['self', 'window']) define(name, globalThis);
}
Object.setPrototypeOf(globalThis, scope.prototype);
target(globalThis, isWorker ? (object, isListened) => native.listenScope(isListened) : null);
define('performance', freeze({ now: () => native.now(), timeOrigin: Date.now() - native.now() }));

// Errors in clones (HTML, 2.7.3), as texts.
const errorTypes = { EvalError, RangeError, ReferenceError, SyntaxError, TypeError, URIError };
function serialized(object, isError) {
  if (!isError && !Exceptions.has(object)) return undefined;
  const { name, message, stack } = object, type = isError ? 'Error' : 'DOMException';
  return JSON.stringify([type, name, message, stack].map((it) => `${it}`));
}
function deserialized(text) {
  const [type, name, message, stack] = JSON.parse(text);
  const made = type === 'DOMException' ? new DOMException(message, name)
    : new (Object.hasOwn(errorTypes, name) ? errorTypes[name] : Error)(message);
  return defineProperty(made, 'stack', { value: stack, writable: true, configurable: true });
}
return {
  // What the runtime makes of this prototype has the slots of this port.
  portPrototype: MessagePort.prototype,
  port: new Targets(native.create(MessagePort.prototype, undefined, true), null),
  serialized, deserialized, report, track, rejections, timers: runTimer,
  exception: (name, why) => (name === 'TypeError' ? refuse(why) : new DOMException(why, name)),
  begin() {
    for (const path of paths) {
      const { href } = path === own ? location : resolve(path.replace(/%/g, '%25'));
      const gone = { message: `no script at ${href}`, filename: href, lineno: 0, colno: 0 };
      try {
        if (native.load(path, href)) continue;
        tell(gone, `varukoni-js: ${gone.message}`, true);
        native.closeScope();
      } catch (error) {
        report(error);
      }
    }
  },
  run() {
    for (let to = native.next(); to !== undefined; to = native.next()) {
      const isPlain = !isArray(to), isRead = isPlain || to[2];
      const state = stateOf(isRead ? 'message' : 'messageerror', true, false, native.data(),
        !isPlain && to[3] ? 'null' : '', isPlain ? noPorts : freeze(to[1]) ?? noPorts);
      const event = native.create(MessageEvent.prototype, state);
      fire(isPlain ? to : to[0], event, state, true);
    }
  },
  closed(object) { fire(object, ...trusted('close', Event, {}), true); },
  workerError(object, { isMissing, text, ...place }) {
    const of = isMissing ? Event : ErrorEvent, more = isMissing ? {} : { ...place, error: null };
    const isHeard = recordsOf(object).some((it) => it.type === 'error');
    const isUnhandled = fire(object, ...trusted('error', of, more, !isMissing), true);
    if (isUnhandled && !(isMissing && isHeard)) report(null, place, text);
  },
};
})
