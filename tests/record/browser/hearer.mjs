// A worker that hears what the page posts.
import { begin } from './agent.mjs';

const hub = begin(1);
hub.listen(globalThis);
globalThis.onmessage = (event) => {
  if (event.data === 'end') hub.end();
};
