'use strict';

const path = 'resources/echo.js';

// A worker that ends with the test.
function started(it, script = path, options = undefined) {
  const worker = new Worker(script, options);
  it.add_cleanup(() => worker.terminate());
  return worker;
}

// The first error that a worker is told to have.
const fails = (worker) => new Promise((resolve) => {
  worker.onerror = (event) => { event.preventDefault(); resolve(event); };
});
