// A dedicated worker of the page.
import { begin, takePart } from './agent.mjs';

const hub = begin(Number(new URL(globalThis.location.href).searchParams.get('agent')));
hub.listen(globalThis);
const part = takePart(hub, hub.to(globalThis, 0));
globalThis.onmessage = (event) => part.take(event.data);
part.act();
