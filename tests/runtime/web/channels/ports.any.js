// META: title=Message ports (HTML, 9.4.2 to 9.4.5)
// META: script=resources/channels.js
'use strict';

test(() => {
  const { port1, port2 } = new MessageChannel();
  assert_true(port1 instanceof MessagePort && port2 instanceof MessagePort);
  assert_true(port1 instanceof EventTarget);
  assert_not_equals(port1, port2);
  assert_equals(String(port1), '[object MessagePort]');
}, 'a channel has two ports');

test(() => {
  assert_equals(MessageChannel.length, 0);
  assert_throws_js(TypeError, () => MessageChannel());
  assert_throws_js(TypeError, () => new MessagePort());
  assert_throws_js(TypeError, () => MessagePort.prototype.postMessage.call({}, 1));
  const { get } = Object.getOwnPropertyDescriptor(MessageChannel.prototype, 'port1');
  assert_throws_js(TypeError, () => get.call({}));
}, 'what the constructors and methods refuse');

test(() => {
  const channel = new MessageChannel(), { port1 } = channel;
  assert_throws_js(TypeError, () => { channel.port1 = 1; });
  assert_equals(channel.port1, port1);
}, 'the ports of a channel are read only');

test(() => {
  const { port1 } = new MessageChannel();
  assert_throws_js(TypeError, () => port1.postMessage());
  assert_equals(port1.postMessage.length, 1);
  assert_equals(port1.postMessage(undefined), undefined);
}, 'postMessage needs a message');

promise_test(async () => {
  const { port1, port2 } = new MessageChannel();
  port1.postMessage('text');
  const event = await next(port2);
  assert_true(event instanceof MessageEvent);
  assert_array_equals(
    [event.type, event.bubbles, event.cancelable, event.isTrusted, event.data, event.origin,
      event.lastEventId, event.source, event.target, event.currentTarget, event.ports.length],
    ['message', false, false, true, 'text', '', '', null, port2, null, 0],
  );
  assert_true(Object.isFrozen(event.ports) && Array.isArray(event.ports));
  assert_equals(event.ports, event.ports);
  port1.close();
}, 'the event of a message');

promise_test(async () => {
  const { port1, port2 } = new MessageChannel();
  for (let at = 0; at < 100; at++) port1.postMessage(at);
  assert_array_equals(await take(port2, 100), [...Array(100).keys()]);
  port1.close();
}, 'messages come in order, each once');

promise_test(async () => {
  const { port1, port2 } = new MessageChannel();
  const order = [];
  const got = next(port2).then(() => order.push('message'));
  port1.postMessage(1);
  order.push('behind the post');
  await Promise.resolve().then(() => order.push('microtask'));
  await got;
  assert_array_equals(order, ['behind the post', 'microtask', 'message']);
  port1.close();
}, 'a message is a task of its own');

promise_test(async () => {
  const { port1, port2 } = new MessageChannel(), got = [];
  port2.addEventListener('message', (event) => got.push(event.data));
  port1.postMessage(1);
  port1.postMessage(2);
  await later(20);
  assert_array_equals(got, []);
  port2.start();
  port2.start();
  await later(20);
  assert_array_equals(got, [1, 2]);
  port1.close();
}, 'a port that is not started keeps its messages');

promise_test(async () => {
  const { port1, port2 } = new MessageChannel(), got = [];
  port2.onmessage = null;
  port1.postMessage(1);
  await later(20);
  port2.addEventListener('message', (event) => got.push(event.data));
  port1.postMessage(2);
  await later(20);
  assert_array_equals(got, [2]);
  port1.close();
}, 'to set onmessage starts a port, whatever it is set to');

test(() => {
  const { port1 } = new MessageChannel(), object = {}, listener = () => {};
  assert_equals(port1.onmessage, null);
  port1.onmessage = listener;
  assert_equals(port1.onmessage, listener);
  port1.onmessage = object;
  assert_equals(port1.onmessage, object);
  port1.onmessage = 1;
  assert_equals(port1.onmessage, null);
  assert_true('onmessageerror' in port1 && 'onclose' in port1);
  port1.close();
}, 'what onmessage can be');

promise_test(async () => {
  const { port1, port2 } = new MessageChannel(), order = [];
  port2.addEventListener('message', () => order.push('first'));
  port2.onmessage = () => order.push('replaced');
  port2.addEventListener('message', () => order.push('third'));
  port2.onmessage = () => order.push('second');
  port1.postMessage(1);
  await later(20);
  assert_array_equals(order, ['first', 'second', 'third']);
  port1.close();
}, 'a handler keeps the place of its first setting');

promise_test(async () => {
  const { port1, port2 } = new MessageChannel(), order = [];
  port2.addEventListener('message', () => Promise.resolve().then(() => order.push('microtask')));
  port2.addEventListener('message', () => order.push('second'));
  port2.start();
  port1.postMessage(1);
  await later(20);
  assert_array_equals(order, ['microtask', 'second']);
  port1.close();
}, 'microtasks run between two listeners');

promise_test(async () => {
  const { port1, port2 } = new MessageChannel(), got = [];
  port2.onmessage = (event) => got.push(event.data);
  port1.postMessage(1);
  port1.close();
  port1.postMessage(2);
  port1.close();
  await later(20);
  assert_array_equals(got, [1]);
}, 'what was posted before the close comes, and what is posted behind it is lost');

promise_test(async () => {
  const { port1, port2 } = new MessageChannel(), got = [];
  port2.onmessage = (event) => { got.push(event.data); port2.close(); };
  port1.postMessage(1);
  port1.postMessage(2);
  await later(20);
  assert_array_equals(got, [1]);
}, 'a closed port takes nothing more');

promise_test(async () => {
  const { port1, port2 } = new MessageChannel(), order = [];
  port2.onmessage = (event) => order.push(event.data);
  port2.onclose = (event) => order.push(event);
  port1.onclose = () => order.push('at the port that was closed');
  port1.postMessage('before');
  port1.close();
  await later(20);
  assert_equals(order.length, 2);
  const [message, event] = order;
  assert_equals(message, 'before');
  assert_array_equals(
    [event.type, event.target, event.bubbles, event.cancelable, event.isTrusted,
      event.constructor === Event],
    ['close', port2, false, false, true, true],
  );
}, 'the other port hears of the close behind the messages');

promise_test(async () => {
  const { port1, port2 } = new MessageChannel();
  let closes = 0;
  port2.addEventListener('close', () => closes++);
  port1.close();
  await later(20);
  assert_equals(closes, 1);
  port2.close();
}, 'a port that is not started hears of the close where nothing waits');

promise_test(async () => {
  const first = new MessageChannel(), second = new MessageChannel();
  first.port2.onmessage = () => second.port1.postMessage('on');
  first.port1.postMessage(1);
  assert_equals((await next(second.port2)).data, 'on');
  first.port1.close();
  second.port1.close();
}, 'a listener posts over another channel');
