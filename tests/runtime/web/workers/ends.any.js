// META: title=Workers that end (HTML, 10.2.4 and 10.2.6)
// META: script=/channels/resources/channels.js
// META: script=resources/workers.js
'use strict';

promise_test(async (it) => {
  const worker = started(it, 'resources/closes.js');
  assert_array_equals(await take(worker, 2), ['before the close', 'behind the close']);
  worker.onmessage = () => assert_unreached();
  worker.postMessage('to a worker that has closed');
  await later(50);
}, 'close lets the task end, and runs no other');

promise_test(async (it) => {
  const worker = started(it), got = [];
  worker.postMessage('first');
  await next(worker);
  worker.onmessage = ({ data }) => got.push(data);
  worker.postMessage('second');
  worker.terminate();
  worker.terminate();
  worker.postMessage('third');
  await later(50);
  assert_array_equals(got, []);
}, 'a worker that was terminated tells nothing more');

for (const how of ['loop', 'finally', 'wait', 'microtasks', 'jobs', 'regexp'])
  promise_test(async (it) => {
    const worker = started(it, 'resources/endless.js'), ended = new MessageChannel();
    worker.postMessage({ how, port: ended.port2 }, [ended.port2]);
    await next(ended.port1);
    await later(30);
    const begin = performance.now();
    worker.terminate();
    await new Promise((resolve) => { ended.port1.onclose = resolve; });
    const time = performance.now() - begin;
    assert_true(time < 5_000, `it took ${time} ms`);
  }, `terminate ends what never ends: ${how}`);
