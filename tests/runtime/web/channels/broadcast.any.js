// META: title=Broadcast channels (HTML, 9.5)
// META: script=resources/channels.js
'use strict';

// Channels of one name, which are closed at the end of the test.
function channels(it, name, count) {
  const made = Array.from({ length: count }, () => new BroadcastChannel(name));
  it.add_cleanup(() => made.forEach((channel) => channel.close()));
  return made;
}

test(() => {
  assert_equals(BroadcastChannel.length, 1);
  assert_throws_js(TypeError, () => BroadcastChannel('x'));
  assert_throws_js(TypeError, () => new BroadcastChannel());
  for (const name of ['', 'a', '\ud800\0', null, undefined, 12]) {
    const channel = new BroadcastChannel(name);
    assert_equals(channel.name, String(name));
    channel.close();
    channel.close();
    assert_equals(channel.name, String(name));
  }
  assert_throws_js(TypeError, () => new BroadcastChannel(Symbol()));
  assert_equals(String(BroadcastChannel.prototype), '[object BroadcastChannel]');
}, 'names');

test((it) => {
  const [channel] = channels(it, 'words', 1);
  assert_throws_js(TypeError, () => channel.postMessage());
  assert_throws_dom('DataCloneError', () => channel.postMessage(Symbol()));
  assert_throws_dom('DataCloneError', () => channel.postMessage(new MessageChannel().port1));
  channel.close();
  assert_throws_dom('InvalidStateError', () => channel.postMessage(1));
  assert_throws_dom('InvalidStateError', () => channel.postMessage(Symbol()));
}, 'what postMessage refuses');

promise_test(async (it) => {
  const [from, to] = channels(it, 'event', 2);
  from.onmessage = () => assert_unreached('the sender hears nothing');
  from.postMessage({ a: 1 });
  const event = await next(to);
  assert_array_equals(
    [event.constructor, event.type, event.target, event.origin, event.source, event.lastEventId,
      event.ports.length, event.data.a, event.isTrusted],
    [MessageEvent, 'message', to, location.origin, null, '', 0, 1, true],
  );
}, 'the event');

promise_test(async (it) => {
  const all = channels(it, 'order', 3), order = [];
  all.forEach((channel, at) => {
    channel.onmessage = ({ data }) => order.push(`${data} at ${at}`);
  });
  all[0].postMessage('a');
  all[2].postMessage('b');
  all[1].postMessage('c');
  await later(30);
  assert_array_equals(order, ['a at 1', 'a at 2', 'b at 0', 'b at 1', 'c at 0', 'c at 2']);
}, 'messages come in the order of posts, and of the channels as they were made');

promise_test(async (it) => {
  const [one] = channels(it, 'one', 1), [other] = channels(it, 'other', 1), got = [];
  const [same] = channels(it, 'one', 1);
  other.onmessage = same.onmessage = ({ target, data }) => got.push(target.name, data);
  one.postMessage(1);
  await later(20);
  assert_array_equals(got, ['one', 1]);
}, 'other names hear nothing');

promise_test(async (it) => {
  const [from, closed, to] = channels(it, 'close', 3), got = [];
  closed.onmessage = () => assert_unreached();
  to.onmessage = ({ data }) => got.push(data);
  from.postMessage(1);
  closed.close();
  await later(20);
  assert_array_equals(got, [1]);
}, 'a channel that is closed behind the post hears nothing');

promise_test(async (it) => {
  const [from, closing, to] = channels(it, 'close in', 3), got = [];
  closing.onmessage = ({ data }) => { got.push(`closing ${data}`); closing.close(); };
  to.onmessage = ({ data }) => got.push(`to ${data}`);
  from.postMessage(1);
  from.postMessage(2);
  await later(20);
  assert_array_equals(got, ['closing 1', 'to 1', 'to 2']);
}, 'a close in a listener');

promise_test(async (it) => {
  const [from, to] = channels(it, 'late', 2), got = [];
  from.postMessage(1);
  const [late] = channels(it, 'late', 1);
  late.onmessage = () => got.push('late');
  to.addEventListener('message', () => got.push('to'));
  await later(20);
  assert_array_equals(got, ['to']);
}, 'a channel that is made behind the post hears nothing, and none has to be started');

promise_test(async (it) => {
  const [from, to] = channels(it, 'shared', 2), shared = new SharedArrayBuffer(1);
  from.postMessage(shared);
  new Uint8Array((await next(to)).data)[0] = 5;
  assert_equals(new Uint8Array(shared)[0], 5);
}, 'shared memory within one agent cluster');

promise_test(async (it) => {
  const [here] = channels(it, 'with a worker', 1);
  const worker = new Worker('resources/broadcaster.js');
  assert_equals((await next(here)).data, 'hello');
  here.postMessage('answer');
  assert_equals((await next(here)).data, 'got answer');
  worker.terminate();
}, 'a worker hears them too');
