// A small harness in the terms of the web platform tests' testharness.js, for windows and workers.
(() => {
  const tests = [], callbacks = [], waits = new Set(['script']);
  const harness = { status: 0, message: null }, isWorker = 'WorkerGlobalScope' in self;
  let mayThrow = false, promised = Promise.resolve();
  const check = (holds, ...why) => { if (!holds) throw new Error(why.map(String).join(' ')); };
  const isDom = (it, name) => it instanceof DOMException && it.name === name;
  const thrown = (body) => { try { body(); } catch (it) { return it; } return {}; };
  const leave = (wait) => waits.delete(wait) && setTimeout(() => {
    if (waits.size > 0) return;
    waits.add('over');
    if (isWorker) postMessage({ type: 'complete', tests, status: harness });
    callbacks.forEach((callback) => callback(tests, harness));
  }, 0);
  class Test {
    #cleanups = [];
    constructor(name) {
      waits.add(Object.assign(this, { name, status: 0, message: null }));
      tests.push(this);
    }
    end(error) {
      if (waits.has(this)) this.#cleanups.forEach((cleanup) => cleanup());
      if (leave(this) && error) Object.assign(this, { status: 1, message: `${error}` });
    }
    done() { this.end(); }
    step(body, ...words) { try { return body.apply(this, words); } catch (it) { this.end(it); } }
    step_func(body) { return (...words) => this.step(body, ...words); }
    add_cleanup(body) { this.#cleanups.push(body); }
  }
  Object.assign(self, {
    setup(options) { mayThrow = options.allow_uncaught_exception; },
    done() { leave('script'); },
    add_completion_callback(callback) { callbacks.push(callback); },
    async_test(body, name) { const it = new Test(name); it.step(body, it); return it; },
    test(body, name) { async_test(body, name).done(); },
    promise_test(body, name) {
      const it = new Test(name);
      promised = promised.then(() => body(it)).then(() => it.end(), (why) => it.end(why ?? 'why'));
    },
    fetch_tests_from_worker(worker) {
      const end = (status) => leave(worker, Object.assign(harness, status));
      waits.add(worker);
      worker.onerror = ({ message = 'no script' }) => end({ status: 1, message });
      worker.addEventListener('message', ({ data: { type, tests: all = [], status } }) =>
        type === 'complete' && end(status, tests.push(...all)));
    },
    assert_true: (it, why) => check(it === true, it, "isn't true", why),
    assert_false: (it, why) => check(it === false, it, "isn't false", why),
    assert_equals: (it, other, why) => check(Object.is(it, other), it, 'and not', other, why),
    assert_not_equals: (it, other, why) => check(!Object.is(it, other), it, 'twice', why),
    assert_array_equals: (it, other, why) => check(it.length === other.length
      && it.every((one, at) => Object.is(one, other[at])), `[${it}] and not [${other}]`, why),
    assert_unreached: (why) => check(false, 'reached', why),
    assert_throws_js: (type, body) => check(thrown(body).constructor === type, 'not', type.name),
    assert_throws_dom: (name, body) => check(isDom(thrown(body), name), 'not', name),
    assert_throws_exactly: (value, body) => check(thrown(body) === value, 'something else'),
  });
  addEventListener('error', (it) => mayThrow || (harness.status = 1, harness.message = it.message));
  if (!isWorker) queueMicrotask(done);
})();
