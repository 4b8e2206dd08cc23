// Three messages, with a fault between sender and receiver. The seed says which, and the route.
import { BODIES, interfere } from '../interfere.mjs';
import { allSent, begin, later, seed } from './agent.mjs';

const CHANGES = ['none', 'drop', 'double', 'swap', 'change', 'rename'];
const hub = begin(0);
const change = CHANGES[seed % CHANGES.length];
const due = BODIES.length - Number(change === 'drop') + Number(change === 'double');
let count = 0;
const take = () => { count += 1; };

const routes = [
  function port() {
    interfere(MessagePort, change);
    const { port1, port2 } = new hub.MessageChannel();
    port2.onmessage = take;
    return port1;
  },
  function worker() {
    interfere(Worker, change);
    return hub.to(new Worker(`hearer.mjs?seed=${seed}`, { type: 'module' }), 1);
  },
  function broadcast() {
    interfere(BroadcastChannel, change);
    new hub.BroadcastChannel(String(seed)).onmessage = take;
    return new hub.BroadcastChannel(String(seed));
  },
];

const route = routes[Math.floor(seed / CHANGES.length)];
const agents = route.name === 'worker' ? 2 : 1;
const sender = route();
BODIES.forEach((body) => sender.postMessage(body));
if (route.name === 'worker') sender.postMessage('end');
while (route.name !== 'worker' && count < due) await later(5);
hub.end();
await allSent();
while (Number(await (await fetch(`/ended?seed=${seed}`)).text()) < agents) await later(20);
if (seed + 1 < routes.length * CHANGES.length) globalThis.location.search = `?seed=${seed + 1}`;
else await fetch('/done', { method: 'POST', body: navigator.userAgent });
