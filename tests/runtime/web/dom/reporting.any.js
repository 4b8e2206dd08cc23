// META: title=Errors that nobody catches (HTML, 8.1.4.6 and 8.1.4.7)
'use strict';

setup({ allow_uncaught_exception: true });

const later = (time) => new Promise((resolve) => { setTimeout(resolve, time); });

// The events of a type until a time has gone, each of which is canceled and hidden from others.
async function seen(type, act, wait = 20) {
  const events = [];
  const listener = (event) => {
    events.push(event);
    event.preventDefault();
    event.stopImmediatePropagation();
  };
  self.addEventListener(type, listener, true);
  act();
  await later(wait);
  self.removeEventListener(type, listener, true);
  return events;
}

promise_test(async () => {
  const error = new RangeError('why');
  const [event] = await seen('error', () => setTimeout(() => { throw error; }, 0));
  assert_true(event instanceof ErrorEvent);
  assert_array_equals(
    [event.error, event.cancelable, event.bubbles, event.isTrusted], [error, true, false, true],
  );
  assert_true(event.message.includes('RangeError: why'));
  assert_true(event.filename.startsWith('file:///') && event.filename === error.fileName);
  assert_equals(event.lineno, error.lineNumber);
  assert_true(event.colno > 0);
}, 'the event of an error');

promise_test(async () => {
  const [event] = await seen('error', () => reportError('a text'));
  assert_equals(event.error, 'a text');
  assert_equals((await seen('error', () => reportError(undefined)))[0].error, undefined);
  assert_throws_js(TypeError, () => reportError());
}, 'reportError');

promise_test(async () => {
  const before = self.onerror, words = [];
  let prevented;
  const last = (event) => { prevented = event.defaultPrevented; event.preventDefault(); };
  self.onerror = function (...given) { words.push(...given); return true; };
  self.addEventListener('error', last);
  const error = new Error('why');
  reportError(error);
  self.removeEventListener('error', last);
  self.onerror = before;
  assert_equals(words.length, 5);
  assert_equals(words[4], error);
  assert_equals(prevented, true);
}, 'onerror has five words, and cancels by true');

promise_test(async () => {
  const reason = new Error('why');
  let promise;
  const [event] = await seen('unhandledrejection', () => { promise = Promise.reject(reason); });
  assert_true(event instanceof PromiseRejectionEvent);
  assert_array_equals(
    [event.promise, event.reason, event.cancelable, event.isTrusted], [promise, reason, true, true],
  );
  const [later] = await seen('rejectionhandled', () => promise.catch(() => {}));
  assert_array_equals([later.promise, later.reason, later.cancelable], [promise, reason, false]);
}, 'a rejection that nobody handles, and one that somebody does later');

promise_test(async () => {
  const events = await seen('unhandledrejection', () => {
    const promise = Promise.reject(new Error('handled in the same task'));
    Promise.resolve().then(() => promise.catch(() => {}));
  });
  assert_equals(events.length, 0);
}, 'a rejection that is handled before the checkpoint ends');
