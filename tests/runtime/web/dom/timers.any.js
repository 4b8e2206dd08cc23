// META: title=Timers and microtasks (HTML, 8.6 and 8.7)
'use strict';

const later = (time) => new Promise((resolve) => { setTimeout(resolve, time); });

promise_test(async () => {
  const order = [];
  setTimeout(() => order.push(30), 30);
  setTimeout(() => order.push(10), 10);
  setTimeout(() => order.push(11), 10);
  setTimeout(() => order.push(0));
  setTimeout(() => order.push('-5'), -5);
  await later(60);
  assert_array_equals(order, [0, '-5', 10, 11, 30]);
}, 'timers come in the order of their times');

promise_test(async () => {
  const got = [];
  setTimeout(function (...words) { got.push(this, ...words); }, 1, 'a', 2);
  self.byText = 0;
  setTimeout('byText++', 1);
  await later(20);
  assert_array_equals(got, [self, 'a', 2]);
  assert_equals(self.byText, 1);
}, 'what a timer calls');

promise_test(async () => {
  let calls = 0;
  const times = setInterval(() => { if (++calls === 3) clearTimeout(times); }, 1);
  const never = setTimeout(() => { calls = 100; }, 1);
  clearInterval(never);
  clearTimeout(undefined);
  clearTimeout(-1);
  await later(40);
  assert_equals(calls, 3);
  assert_true(Number.isInteger(times) && times > 0);
}, 'intervals, and what is cleared');

promise_test(async () => {
  const order = [];
  setTimeout(() => { order.push('a'); Promise.resolve().then(() => order.push('microtask')); }, 1);
  setTimeout(() => order.push('b'), 1);
  await later(20);
  assert_array_equals(order, ['a', 'microtask', 'b']);
}, 'microtasks run between two timers');

promise_test(async () => {
  let last = performance.now();
  const waits = [];
  await new Promise((resolve) => {
    const nest = () => {
      const now = performance.now();
      waits.push(now - last);
      last = now;
      if (waits.length < 12) setTimeout(nest, 0);
      else resolve();
    };
    setTimeout(nest, 0);
  });
  assert_true(waits.slice(7).every((it) => it >= 3.9), `waits ${waits}`);
}, 'timers that are nested deep wait 4 ms');

promise_test(async () => {
  const order = [];
  queueMicrotask(() => order.push(1));
  Promise.resolve().then(() => order.push(2));
  queueMicrotask(() => { order.push(3); queueMicrotask(() => order.push(4)); });
  await later(0);
  assert_array_equals(order, [1, 2, 3, 4]);
  assert_throws_js(TypeError, () => queueMicrotask());
  assert_throws_js(TypeError, () => queueMicrotask({}));
  assert_throws_js(TypeError, () => setTimeout());
}, 'queueMicrotask');

promise_test(async () => {
  const seen = [];
  const noted = (event) => {
    seen.push(event.error.message);
    event.preventDefault();
    event.stopImmediatePropagation();
  };
  self.addEventListener('error', noted, true);
  queueMicrotask(() => { throw new Error('microtask'); });
  setTimeout(() => { throw new Error('timer'); }, 0);
  await later(20);
  self.removeEventListener('error', noted, true);
  assert_array_equals(seen, ['microtask', 'timer']);
}, 'a callback that throws is reported');
