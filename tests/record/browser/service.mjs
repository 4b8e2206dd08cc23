// A service worker. It acts once the page has posted at it.
import { begin, takePart } from './agent.mjs';

const hub = begin(4);
hub.listen(globalThis);
let part;
globalThis.addEventListener('message', (event) => {
  const isFirst = part === undefined;
  part ??= takePart(hub, hub.to(event.source, 0));
  if (isFirst) event.waitUntil(part.act());
  else part.take(event.data);
});
