// META: title=Errors of workers (HTML, 8.1.4.6 and 10.2.4)
// META: script=/channels/resources/channels.js
// META: script=resources/workers.js
'use strict';

promise_test(async (it) => {
  const event = await fails(started(it, 'resources/throws.js'));
  assert_true(event instanceof ErrorEvent);
  assert_true(event.message.includes('thrown at the start'));
  assert_true(event.filename.endsWith('/workers/resources/throws.js'));
  assert_array_equals(
    [event.lineno, event.error, event.cancelable, event.isTrusted], [3, null, true, true],
  );
}, 'an error of a worker is told to its maker');

promise_test(async (it) => {
  const event = await fails(started(it, 'resources/no_script.txt'));
  assert_true(event instanceof ErrorEvent);
  assert_true(event.message.includes('SyntaxError'));
}, 'a script that is none');

for (const script of ['resources/missing.js', 'http://localhost/x.js', 'blob:x',
  'data:text/javascript,1'])
  promise_test(async (it) => {
    const event = await fails(started(it, script));
    assert_equals(event.constructor, Event);
    assert_equals(event.type, 'error');
  }, `a script that can not be read: ${script}`);

promise_test(async (it) => {
  const worker = started(it, 'resources/rejects.js');
  const event = await fails(worker);
  assert_true(event.message.includes('nobody handles this'));
}, 'a rejection that nobody handles is told to the maker');

promise_test(async (it) => {
  const worker = started(it, 'resources/handles.js');
  let errors = 0;
  worker.onerror = () => errors++;
  assert_array_equals(await take(worker, 2), ['error', 'rejection']);
  await later(20);
  assert_equals(errors, 0);
}, 'errors that are handled in the worker go no further');
