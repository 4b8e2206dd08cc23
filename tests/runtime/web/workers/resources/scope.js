'use strict';

postMessage({
  name: self.name,
  href: location.href,
  search: location.search,
  hash: location.hash,
  protocol: location.protocol,
  scopes: [
    self === globalThis, self instanceof DedicatedWorkerGlobalScope,
    self instanceof WorkerGlobalScope, self instanceof EventTarget,
  ],
  absent: [typeof document, typeof window, typeof Window, typeof load],
});
