// META: title=Ports and buffers that are transferred (HTML, 2.7.7 and 9.4.4)
// META: script=resources/channels.js
'use strict';

for (const [form, list] of [['a list', (it) => it], ['options', (transfer) => ({ transfer })]]) {
  promise_test(async () => {
    const road = new MessageChannel(), { port1, port2 } = new MessageChannel();
    road.port1.postMessage({ port: port2 }, list([port2]));
    const event = await next(road.port2), [port] = event.ports;
    assert_true(port instanceof MessagePort);
    assert_equals(event.data.port, port);
    assert_equals(event.ports.length, 1);
    assert_true(Object.isFrozen(event.ports));
    assert_not_equals(port, port2);
    port.postMessage('over the port');
    assert_equals((await next(port1)).data, 'over the port');
    for (const it of [road.port1, port1]) it.close();
  }, `a port is sent with ${form}`);
}

promise_test(async () => {
  const road = new MessageChannel(), { port1, port2 } = new MessageChannel();
  port1.postMessage(1);
  port1.postMessage(2);
  road.port1.postMessage('', [port2]);
  port1.postMessage(3);
  const { ports: [port] } = await next(road.port2);
  port1.postMessage(4);
  assert_array_equals(await take(port, 4), [1, 2, 3, 4]);
  for (const it of [road.port1, port1]) it.close();
}, 'what waits at a port travels with it');

promise_test(async () => {
  const road = new MessageChannel(), { port1, port2 } = new MessageChannel(), got = [];
  port2.onmessage = (event) => got.push(event.data);
  port1.postMessage(1);
  road.port1.postMessage('', [port2]);
  const { ports: [port] } = await next(road.port2);
  await later(20);
  assert_array_equals(got, []);
  assert_array_equals(await take(port, 1), [1]);
  for (const it of [road.port1, port1]) it.close();
}, 'a started port that is sent takes nothing more, and is not started where it comes');

promise_test(async () => {
  let { port1, port2 } = new MessageChannel();
  port1.postMessage('first');
  for (let hop = 0; hop < 20; hop++) {
    const road = new MessageChannel();
    road.port1.postMessage('', [port2]);
    ({ ports: [port2] } = await next(road.port2));
    port1.postMessage(hop);
    road.port1.close();
  }
  assert_array_equals(await take(port2, 21), ['first', ...Array(20).keys()]);
  port1.close();
}, 'a port that is sent many times');

promise_test(async () => {
  const road = new MessageChannel();
  const channels = Array.from({ length: 3 }, () => new MessageChannel());
  const ports = channels.map((it) => it.port2);
  road.port1.postMessage([ports[2], ports[0]], ports);
  const event = await next(road.port2);
  assert_equals(event.ports.length, 3);
  assert_equals(event.data[0], event.ports[2]);
  assert_equals(event.data[1], event.ports[0]);
  channels[1].port1.postMessage('second');
  assert_equals((await next(event.ports[1])).data, 'second');
  for (const it of [road, ...channels]) it.port1.close();
}, 'ports stand in the order of the list');

test(() => {
  const road = new MessageChannel(), { port1, port2 } = new MessageChannel();
  road.port1.postMessage('', [port2]);
  port2.postMessage('from a port that was sent');
  port2.start();
  port2.close();
  assert_throws_dom('DataCloneError', () => road.port1.postMessage('', [port2]));
  for (const it of [road.port1, port1]) it.close();
}, 'a port that was sent does nothing, and is not sent twice');

promise_test(async () => {
  const { port1, port2 } = new MessageChannel(), other = new MessageChannel().port1;
  assert_throws_dom('DataCloneError', () => port1.postMessage('', [other, port1]));
  assert_throws_dom('DataCloneError', () => port1.postMessage('', [other, other]));
  assert_throws_dom('DataCloneError', () => port1.postMessage(other));
  assert_throws_dom('DataCloneError', () => port1.postMessage(() => {}, [other]));
  port1.postMessage('', [other]);
  assert_equals((await next(port2)).ports.length, 1);
  port1.close();
}, 'lists that are refused, and what they leave');

test(() => {
  const { port1 } = new MessageChannel(), closed = new MessageChannel().port1;
  closed.close();
  assert_throws_dom('DataCloneError', () => port1.postMessage('', [closed]));
  port1.close();
}, 'a closed port is not sent');

test(() => {
  const { port1 } = new MessageChannel();
  for (const it of [{}, [], () => {}, new Date(), new EventTarget(), new Uint8Array(1)])
    assert_throws_dom('DataCloneError', () => port1.postMessage('', [it]));
  for (const list of [[1], [null], { transfer: 1 }, { transfer: [undefined] }, 1, 'text',
    { transfer: {} }])
    assert_throws_js(TypeError, () => port1.postMessage('', list));
  for (const list of [undefined, null, [], {}, { transfer: undefined }, { transfer: [] },
    new Set(), () => {}])
    port1.postMessage('', list);
  port1.close();
}, 'what a list can have, and what a list can be');

promise_test(async () => {
  const buffer = new Uint8Array([1, 2, 3]).buffer;
  const data = await sent({ buffer }, [buffer]);
  assert_equals(buffer.byteLength, 0);
  assert_array_equals([...new Uint8Array(data.buffer)], [1, 2, 3]);
  assert_throws_dom('DataCloneError', () => new MessageChannel().port1.postMessage('', [buffer]));
}, 'a buffer that is transferred is detached');

promise_test(async () => {
  const { port1, port2 } = new MessageChannel(), other = new MessageChannel();
  const buffer = new ArrayBuffer(8), thrown = new Error('thrown');
  const bad = { get it() { throw thrown; } };
  assert_throws_exactly(thrown, () => port1.postMessage(bad, [buffer, other.port1]));
  assert_throws_dom('DataCloneError', () => port1.postMessage(Symbol(), [buffer, other.port1]));
  assert_throws_dom('DataCloneError', () => port1.postMessage('', [buffer, other.port1, port1]));
  assert_equals(buffer.byteLength, 8);
  other.port1.postMessage('still here');
  assert_equals((await next(other.port2)).data, 'still here');
  for (const it of [port1, port2, other.port1]) it.close();
}, 'a clone that fails leaves buffers and ports where they were');

promise_test(async () => {
  const { port1, port2 } = new MessageChannel(), other = new MessageChannel();
  const bad = { get it() { other.port1.close(); return 1; } };
  port1.postMessage(bad, [other.port1]);
  const { data, ports } = await next(port2);
  assert_equals(data.it, 1);
  assert_equals(ports.length, 1);
  port1.close();
}, 'a port that a getter closes on the way');

for (const list of [[], [new ArrayBuffer(1)]]) promise_test(async () => {
  const { port1, port2 } = new MessageChannel(), road = new MessageChannel(), got = [];
  port2.onmessage = (event) => got.push(event.data);
  port1.postMessage({ get it() { road.port1.postMessage('', [port1]); return 1; } }, list);
  const { ports: [port] } = await next(road.port2);
  port.postMessage('from the new owner');
  await later(20);
  assert_array_equals(got, ['from the new owner']);
  for (const it of [road.port1, port]) it.close();
}, `a port that a getter sends away posts nothing any more, nor ${list.length} buffers`);

promise_test(async () => {
  const { port1, port2 } = new MessageChannel();
  let closes = 0;
  port1.onmessage = () => assert_unreached();
  port1.onclose = () => closes++;
  port1.postMessage('', [port2]);
  await later(20);
  assert_equals(closes, 1);
}, 'the other port of the channel is lost with the message');

promise_test(async () => {
  const { port1, port2 } = new MessageChannel(), other = new MessageChannel();
  let closes = 0;
  other.port1.onclose = () => closes++;
  port1.postMessage('', [other.port2]);
  port2.close();
  await later(20);
  assert_equals(closes, 1);
}, 'a port in a message that nobody takes is closed');

promise_test(async () => {
  const { port1, port2 } = new MessageChannel(), bag = [];
  const road = new MessageChannel();
  road.port1.postMessage('', [port2]);
  const { ports: [port] } = await next(road.port2);
  port.addEventListener('message', (event) => bag.push(event.data));
  port1.close();
  port.start();
  await later(20);
  assert_array_equals(bag, []);
  road.port1.close();
}, 'a close travels with a port');
