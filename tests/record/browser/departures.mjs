// What browsers do otherwise than the hub, each in a page of its own.
import { allSent, begin, later } from './agent.mjs';

const hub = begin(0);
const heard = [];
globalThis.onerror = (message) => heard.push(message);

function listen(port, name) {
  port.onmessage = (event) => heard.push(`${name} ${event.data}`);
}

// The port, as another channel gives it.
function sent(port) {
  const { port1, port2 } = new hub.MessageChannel();
  const arrived = new Promise((done) => { port2.onmessage = (event) => done(event.data); });
  port1.postMessage(port, [port]);
  return arrived;
}

const ways = {
  // Messages wait at a port, and its owner closes it.
  async closed() {
    const { port1, port2 } = new hub.MessageChannel();
    listen(port2, 'port');
    port1.postMessage('one');
    port1.postMessage('two');
    port2.close();
  },
  // Messages wait at a port, the other port is closed, and the port is sent.
  async peerClosed() {
    const { port1, port2 } = new hub.MessageChannel();
    port1.postMessage('one');
    port1.postMessage('two');
    port1.close();
    await later(20);
    listen(await sent(port2), 'sent port');
  },
  // Messages are on their way to a port that is started, and it is sent.
  async underWay() {
    const { port1, port2 } = new hub.MessageChannel();
    listen(port2, 'old port');
    port1.postMessage('one');
    port1.postMessage('two');
    listen(await sent(port2), 'sent port');
  },
  // A closed port is sent.
  async closedSent() {
    const { port1 } = new hub.MessageChannel();
    port1.close();
    try {
      listen(await sent(port1), 'sent port');
      heard.push('accepted');
    } catch (error) {
      heard.push(error.name);
    }
  },
};

const way = new URL(globalThis.location.href).searchParams.get('way');
await ways[way]();
await later(200);
// A slow machine may need longer: what was posted before comes before these.
for (let count = 0; count < 50; count += 1) await sent(new hub.MessageChannel().port1);
hub.end();
await allSent();
await fetch('/done', { method: 'POST', body: heard.join(', ') });
