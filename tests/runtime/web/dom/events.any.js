// META: title=Events and targets (DOM, 2.2 to 2.10; HTML, 8.1.8 and 9.1)
'use strict';

test(() => {
  const event = new Event('x', { bubbles: true, cancelable: 1 });
  assert_array_equals(
    [event.type, event.bubbles, event.cancelable, event.composed, event.isTrusted, event.target,
      event.currentTarget, event.eventPhase, event.defaultPrevented],
    ['x', true, true, false, false, null, null, 0, false],
  );
  assert_array_equals(
    [Event.NONE, Event.CAPTURING_PHASE, event.AT_TARGET, Event.BUBBLING_PHASE], [0, 1, 2, 3],
  );
  assert_equals(typeof event.timeStamp, 'number');
  assert_equals(event.composedPath().length, 0);
}, 'a new event');

test(() => {
  for (const type of [Event, CustomEvent, MessageEvent, ErrorEvent]) {
    assert_equals(type.length, 1);
    assert_throws_js(TypeError, () => new type());
    assert_throws_js(TypeError, () => type('x'));
    assert_throws_js(TypeError, () => new type('x', 1));
    assert_equals(new type('x', null).type, 'x');
    assert_equals(String(new type(1)), `[object ${type.name}]`);
  }
  assert_throws_js(TypeError, () => new PromiseRejectionEvent('x'));
  assert_throws_js(TypeError, () => new PromiseRejectionEvent('x', {}));
}, 'constructors of events');

test(() => {
  const event = new MessageEvent('message');
  assert_array_equals(
    [event.data, event.origin, event.lastEventId, event.source, event.ports.length],
    [null, '', '', null, 0],
  );
  const { port1, port2 } = new MessageChannel(), ports = [port2, port1];
  const given = { data: 1, origin: 'o', lastEventId: 'l', source: port1, ports };
  const { data, origin, lastEventId, source } = new MessageEvent('x', given);
  assert_array_equals([data, origin, lastEventId, source], [1, 'o', 'l', port1]);
  const full = new MessageEvent('x', given);
  assert_array_equals([...full.ports], ports);
  assert_true(Object.isFrozen(full.ports));
  assert_not_equals(full.ports, ports);
  assert_false(full.isTrusted);
}, 'a new MessageEvent');

test(() => {
  for (const ports of [null, 1, {}, [1], [{}], [new EventTarget()]])
    assert_throws_js(TypeError, () => new MessageEvent('x', { ports }));
  for (const source of [1, {}, new EventTarget()])
    assert_throws_js(TypeError, () => new MessageEvent('x', { source }));
}, 'what a MessageEvent refuses');

test(() => {
  const target = new EventTarget(), order = [];
  target.addEventListener('x', () => order.push('bubbles'));
  target.addEventListener('x', () => order.push('captures'), true);
  target.addEventListener('x', { handleEvent() { order.push('object'); } });
  assert_true(target.dispatchEvent(new Event('x')));
  assert_array_equals(order, ['captures', 'bubbles', 'object']);
}, 'listeners are called in order, those that capture first');

test(() => {
  const target = new EventTarget();
  let calls = 0;
  const listener = function (event) {
    calls++;
    assert_array_equals(
      [this, event.target, event.currentTarget, event.eventPhase, event.composedPath()[0]],
      [target, target, target, Event.AT_TARGET, target],
    );
  };
  target.addEventListener('x', listener);
  target.addEventListener('x', listener);
  target.addEventListener('x', listener, true);
  target.addEventListener('x', null);
  const event = new Event('x');
  target.dispatchEvent(event);
  assert_equals(calls, 2);
  assert_array_equals([event.target, event.currentTarget, event.eventPhase], [target, null, 0]);
  target.removeEventListener('x', listener);
  target.dispatchEvent(event);
  assert_equals(calls, 3);
}, 'one listener is there once for each phase');

test(() => {
  const target = new EventTarget(), order = [];
  const removed = () => order.push('removed');
  const once = () => { order.push('once'); target.removeEventListener('x', removed); };
  const adds = () => target.addEventListener('x', () => order.push('added'));
  target.addEventListener('x', once, { once: true });
  target.addEventListener('x', adds, { once: true });
  target.addEventListener('x', removed);
  target.dispatchEvent(new Event('x'));
  target.dispatchEvent(new Event('x'));
  assert_array_equals(order, ['once', 'added']);
}, 'once, and what is removed and added in a listener');

test(() => {
  const target = new EventTarget(), cancel = (event) => event.preventDefault();
  target.addEventListener('x', cancel);
  assert_true(target.dispatchEvent(new Event('x')));
  assert_false(target.dispatchEvent(new Event('x', { cancelable: true })));
  target.removeEventListener('x', cancel);
  target.addEventListener('x', cancel, { passive: true });
  assert_true(target.dispatchEvent(new Event('x', { cancelable: true })));
}, 'what can be canceled');

test(() => {
  const target = new EventTarget(), order = [];
  target.addEventListener('x', (event) => { order.push(1); event.stopPropagation(); });
  target.addEventListener('x', (event) => { order.push(2); event.stopImmediatePropagation(); });
  target.addEventListener('x', () => order.push(3));
  target.dispatchEvent(new Event('x'));
  assert_array_equals(order, [1, 2]);
}, 'what stops other listeners');

test(() => {
  const target = new EventTarget(), event = new Event('x');
  let thrown;
  target.addEventListener('x', () => {
    try { target.dispatchEvent(event); } catch (error) { thrown = error; }
  });
  target.dispatchEvent(event);
  assert_equals(thrown.name, 'InvalidStateError');
  assert_throws_js(TypeError, () => target.dispatchEvent({}));
  assert_throws_js(TypeError, () => target.dispatchEvent(null));
  assert_throws_js(TypeError, () => target.addEventListener('x'));
  assert_throws_js(TypeError, () => target.addEventListener('x', 1));
}, 'what a target refuses');

test(() => {
  class Own extends EventTarget { constructor() { super(); this.a = 1; } get b() { return 2; } }
  const own = new Own();
  let got;
  own.addEventListener('x', ({ detail }) => { got = detail; });
  own.dispatchEvent(new CustomEvent('x', { detail: own.a + own.b }));
  assert_equals(got, 3);
  assert_true(own instanceof Own && own instanceof EventTarget);
}, 'a class that extends EventTarget');

test(() => {
  const target = new EventTarget(), order = [], thrown = new Error('in a listener');
  const noted = (event) => {
    order.push(event.error);
    event.preventDefault();
    event.stopImmediatePropagation();
  };
  target.addEventListener('x', () => { throw thrown; });
  target.addEventListener('x', () => order.push('the next'));
  self.addEventListener('error', noted, true);
  assert_true(target.dispatchEvent(new Event('x')));
  self.removeEventListener('error', noted, true);
  assert_array_equals(order, [thrown, 'the next']);
}, 'a listener that throws is reported, and the next is called');

test(() => {
  const { port1 } = new MessageChannel(), cancel = new Event('close', { cancelable: true });
  port1.onclose = () => false;
  assert_false(port1.dispatchEvent(cancel));
  port1.onclose = {};
  assert_true(port1.dispatchEvent(new Event('close', { cancelable: true })));
  let trusted;
  port1.onmessageerror = (event) => { trusted = event.isTrusted; };
  port1.dispatchEvent(new MessageEvent('messageerror'));
  assert_equals(trusted, false);
}, 'handlers that return false cancel');

test(() => {
  const names = (type) => Object.keys(type.prototype).sort().join(' ');
  assert_equals(names(EventTarget), 'addEventListener dispatchEvent removeEventListener');
  assert_equals(names(MessagePort), 'close onclose onmessage onmessageerror postMessage start');
  assert_equals(names(MessageChannel), 'port1 port2');
  assert_equals(names(BroadcastChannel), 'close name onmessage onmessageerror postMessage');
  assert_equals(names(Worker), 'onerror onmessage onmessageerror postMessage terminate');
  assert_equals(names(MessageEvent), 'data lastEventId origin ports source');
  for (const type of [Event, EventTarget, MessagePort, MessageChannel, BroadcastChannel, Worker,
    DOMException]) {
    const found = Object.getOwnPropertyDescriptor(self, type.name);
    assert_array_equals(
      [found.enumerable, found.writable, found.configurable], [false, true, true],
    );
  }
  assert_equals(Object.getPrototypeOf(MessagePort), EventTarget);
  assert_equals(Object.getPrototypeOf(EventTarget), Function.prototype);
}, 'members, as Web IDL has them');
