// META: title=Structured clones (HTML, 2.7)
// META: script=resources/channels.js
'use strict';

const both = async (value, check) => {
  check(await sent(value));
  check(structuredClone(value));
};

for (const value of [undefined, null, true, false, 0, -0, 1.5, NaN, Infinity, 2 ** 53, 12n,
  -(2n ** 70n), '', 'text', 'a\0b', '\ud800', '\u{1f600}'])
  promise_test(() => both(value, (it) => assert_equals(it, value)),
    `the primitive ${String(value)} ${typeof value}`);

promise_test(() => both({ a: [1, { b: 2 }], c: undefined }, (it) => {
  assert_equals(JSON.stringify(it), '{"a":[1,{"b":2}]}');
  assert_true('c' in it);
  assert_equals(Object.getPrototypeOf(it), Object.prototype);
}), 'objects and arrays');

promise_test(() => {
  const value = { list: [] };
  value.list.push(value, value.list);
  return both(value, (it) => {
    assert_not_equals(it, value);
    assert_equals(it.list[0], it);
    assert_equals(it.list[1], it.list);
  });
}, 'circles');

promise_test(() => {
  const list = [1, , 3];
  list.name = 'more';
  return both(list, (it) => {
    assert_equals(it.length, 3);
    assert_false(1 in it);
    assert_equals(it.name, 'more');
  });
}, 'a list with a hole');

promise_test(() => both(new Date(86_400_000), (it) => {
  assert_true(it instanceof Date);
  assert_equals(it.getTime(), 86_400_000);
}), 'a date');

promise_test(() => {
  const found = /a(b)/giu;
  found.lastIndex = 3;
  return both(found, (it) => {
    assert_true(it instanceof RegExp);
    assert_array_equals([it.source, it.flags, it.lastIndex], ['a(b)', 'giu', 0]);
  });
}, 'a regular expression');

promise_test(() => both(new Map([['a', 1], [{ b: 2 }, new Set([3, 'c'])]]), (it) => {
  assert_true(it instanceof Map);
  const [[a, one], [key, set]] = it;
  assert_array_equals([a, one, key.b, set instanceof Set, ...set], ['a', 1, 2, true, 3, 'c']);
}), 'maps and sets');

promise_test(() => {
  const buffer = new Uint8Array([0, 1, 2, 3, 4, 5, 6, 7]).buffer;
  const value = [
    new Uint8Array(buffer, 2, 3), new DataView(buffer, 4), new Uint16Array(buffer), buffer,
  ];
  return both(value, ([bytes, view, words, all]) => {
    assert_array_equals([...bytes], [2, 3, 4]);
    assert_equals(view.getUint8(0), 4);
    assert_equals(words.length, 4);
    assert_true(bytes.buffer === all && view.buffer === all && words.buffer === all);
    assert_not_equals(all, buffer);
  });
}, 'typed arrays over one buffer');

promise_test(() => both([new Boolean(false), new Number(-0), new String('s'), Object(3n)], (it) => {
  assert_array_equals(it.map((one) => typeof one), ['object', 'object', 'object', 'object']);
  assert_array_equals(it.map((one) => one.valueOf()), [false, -0, 's', 3n]);
}), 'wrapped primitives');

for (const type of [Error, EvalError, RangeError, ReferenceError, SyntaxError, TypeError, URIError])
  promise_test(() => both(new type('why'), (it) => {
    assert_equals(Object.getPrototypeOf(it), type.prototype);
    assert_array_equals([it.name, it.message], [type.name, 'why']);
    assert_false(Object.prototype.propertyIsEnumerable.call(it, 'message'));
  }), `an error of ${type.name}`);

promise_test(() => {
  class Own extends Error { get name() { return 'Own'; } }
  return both(new Own('why'), (it) => {
    assert_equals(Object.getPrototypeOf(it), Error.prototype);
    assert_equals(it.message, 'why');
  });
}, 'an error of a class of its own is an Error');

promise_test(() => both(new DOMException('why', 'AbortError'), (it) => {
  assert_true(it instanceof DOMException);
  assert_array_equals([it.name, it.message, it.code], ['AbortError', 'why', 20]);
}), 'a DOMException');

test(() => {
  for (const value of [() => {}, Symbol(), new WeakMap(), new WeakSet(), Promise.resolve(),
    { it: Symbol() }])
    assert_throws_dom('DataCloneError', () => structuredClone(value));
  const { port1 } = new MessageChannel();
  for (const value of [new Event('x'), new EventTarget(), new MessageChannel(), port1, globalThis,
    location, new MessageEvent('x')])
    assert_throws_dom('DataCloneError', () => structuredClone({ value }));
}, 'what can not be cloned');

test(() => {
  class Own { constructor() { this.a = 1; } get b() { return 2; } }
  const it = structuredClone(new Own());
  assert_equals(Object.getPrototypeOf(it), Object.prototype);
  assert_array_equals(Object.keys(it), ['a']);
  const value = Object.defineProperty({ get a() { return 1; }, [Symbol()]: 2 }, 'b', { value: 3 });
  assert_equals(JSON.stringify(Object.getOwnPropertyDescriptors(structuredClone(value))),
    '{"a":{"value":1,"writable":true,"enumerable":true,"configurable":true}}');
}, 'prototypes, getters, symbols and what is not enumerable');

test(() => {
  assert_equals(structuredClone.length, 1);
  assert_throws_js(TypeError, () => structuredClone());
  assert_throws_js(TypeError, () => structuredClone(1, 1));
  assert_throws_js(TypeError, () => structuredClone(1, { transfer: 1 }));
}, 'the words of structuredClone');

promise_test(async () => {
  const { port1, port2 } = new MessageChannel(), buffer = new ArrayBuffer(4);
  port1.postMessage('waits');
  const it = structuredClone({ port2, buffer }, { transfer: [port2, buffer] });
  assert_equals(buffer.byteLength, 0);
  assert_equals(it.buffer.byteLength, 4);
  assert_not_equals(it.port2, port2);
  assert_equals((await next(it.port2)).data, 'waits');
  port1.close();
}, 'structuredClone transfers');

promise_test(async () => {
  const shared = new SharedArrayBuffer(4), bytes = new Uint8Array(shared);
  const there = new Uint8Array(await sent(shared));
  there[0] = 7;
  assert_equals(bytes[0], 7);
  assert_throws_dom('DataCloneError', () => structuredClone(shared, { transfer: [shared] }));
}, 'shared memory is shared');

promise_test(async () => {
  const text = 'x'.repeat(1_000_000);
  assert_equals((await sent({ text })).text, text);
}, 'a large message');
