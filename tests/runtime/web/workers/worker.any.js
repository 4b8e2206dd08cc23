// META: title=Workers (HTML, 10.2)
// META: script=/channels/resources/channels.js
// META: script=resources/workers.js
'use strict';

test(() => {
  assert_equals(Worker.length, 1);
  assert_throws_js(TypeError, () => Worker(path));
  assert_throws_js(TypeError, () => new Worker());
  assert_throws_js(TypeError, () => new Worker(path, { type: 'module' }));
  assert_throws_js(TypeError, () => new Worker(path, { type: 'fly' }));
  assert_throws_js(TypeError, () => new Worker(path, 1));
  assert_throws_dom('SyntaxError', () => new Worker('http://['));
  assert_equals(Object.getPrototypeOf(Worker), EventTarget);
}, 'what the constructor refuses');

promise_test(async (it) => {
  const worker = started(it);
  worker.postMessage({ a: [1, new Date(0)] });
  const event = await next(worker);
  assert_array_equals(
    [event.type, event.target, event.origin, event.source, event.ports.length, event.isTrusted],
    ['message', worker, '', null, 0, true],
  );
  assert_equals(event.data.a[1].getTime(), 0);
  assert_throws_js(TypeError, () => worker.postMessage());
}, 'messages go there and back');

promise_test(async (it) => {
  const worker = started(it);
  for (let at = 0; at < 200; at++) worker.postMessage(at);
  assert_array_equals(await take(worker, 200), [...Array(200).keys()]);
}, 'messages that were posted before the script has run wait for it');

promise_test(async (it) => {
  const worker = started(it), bytes = new Uint8Array([1, 2]);
  const { port1, port2 } = new MessageChannel();
  worker.postMessage({ port2, bytes }, { transfer: [port2, bytes.buffer] });
  assert_equals(bytes.length, 0);
  const { data, ports: [port] } = await next(worker);
  assert_array_equals([...data.bytes], [1, 2]);
  assert_equals(data.port2, port);
  port.postMessage('there and back');
  assert_equals((await next(port1)).data, 'there and back');
  port1.close();
}, 'a port and a buffer go there and back');

promise_test(async (it) => {
  const worker = started(it);
  assert_throws_dom('DataCloneError', () => worker.postMessage(Symbol()));
  assert_throws_dom('DataCloneError', () => worker.postMessage(worker));
  assert_throws_dom('DataCloneError', () => worker.postMessage('', [worker]));
  worker.postMessage('still');
  assert_equals((await next(worker)).data, 'still');
}, 'what can not be posted');

promise_test(async (it) => {
  const worker = started(it, 'resources/scope.js?query#hash', { name: 'a name' });
  const { data } = await next(worker);
  assert_equals(data.name, 'a name');
  assert_true(data.href.startsWith('file:///'));
  assert_true(data.href.endsWith('/workers/resources/scope.js?query#hash'));
  assert_array_equals([data.search, data.hash, data.protocol], ['?query', '#hash', 'file:']);
  assert_array_equals(data.scopes, [true, true, true, true]);
  assert_array_equals(data.absent, ['undefined', 'undefined', 'undefined', 'undefined']);
}, 'the scope of a worker');

promise_test(async (it) => {
  const worker = started(it, 'resources/nests.js');
  worker.postMessage('through two');
  assert_equals((await next(worker)).data, 'through two');
}, 'a worker has a worker');

promise_test(async (it) => {
  const worker = started(it), shared = new Int32Array(new SharedArrayBuffer(4));
  worker.postMessage({ add: shared });
  await next(worker);
  assert_equals(Atomics.load(shared, 0), 1);
}, 'shared memory');

test((it) => {
  const worker = started(it);
  let got;
  worker.onmessage = (event) => { got = event; };
  const event = new MessageEvent('message', { data: 1 });
  assert_true(worker.dispatchEvent(event));
  assert_equals(got, event);
  worker.onmessage = 1;
  assert_equals(worker.onmessage, null);
}, 'a worker is a target of events');
