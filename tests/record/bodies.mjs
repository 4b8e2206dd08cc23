// Bodies at the limits and past them, and calls that are refused, which are recorded.
// usage: node bodies.mjs FOLDER [WORKERS]    (prints the code of each refusal; WORKERS are begun)
import { MessageChannel } from 'node:worker_threads';
import { record } from '../../record/hublog.mjs';
import { show } from './showing.mjs';

const nested = (depth) => (depth === 0 ? [] : [nested(depth - 1)]);
const cycle = { name: 'cycle' };
cycle.it = cycle;
class Point { constructor() { this.x = 1; } get [Symbol.toStringTag]() { return 'Point'; } }
const BODIES = [
  null, { b: 1, a: [true, 'é\u2028\n'] }, 2 ** 53 - 1, 'x'.repeat(262_142), nested(63),
  1.5, -0, undefined, new Date(0), 2 ** 53, 12n, 'x'.repeat(262_143), nested(64), '\ud800',
  [1, , 3], cycle, new Point(), new Map([[1, new Set([2])]]), Buffer.from('text'), /a/gi,
  new RangeError('far'), Object.assign(new Error('own'), { name: 'Own' }), Object(7), [undefined],
  new DataView(new ArrayBuffer(3)), new SharedArrayBuffer(2), new Uint8Array(new ArrayBuffer(9), 2),
];

show(() => record());
show(() => record({ agent: 16, sink: () => {} }));
show(() => record({ agent: 0, sink: 'no function' }));
const [folder, workers = 0] = process.argv.slice(2);
const hub = record({ folder });
const { port1, port2 } = new hub.MessageChannel();
for (const body of BODIES) port1.postMessage(body);
while (hub.receiveMessageOnPort(port2));
const ports = Array.from({ length: 9 }, () => Object.values(new hub.MessageChannel())).flat();
port1.postMessage({ first: ports[0], last: ports[16] }, ports.slice(0, 17));
hub.receiveMessageOnPort(port2);
const foreign = new MessageChannel().port1;
show(() => port1.postMessage(foreign, [foreign]));
show(() => port1.postMessage(nested(1_001)));
for (let count = 0; count < workers; count += 1) new hub.Worker('', { eval: true });
if (workers) show(() => new hub.Worker('', { eval: true }));
