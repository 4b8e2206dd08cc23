// A message has at most 16 ports: 17 are refused, and stay where they are.
'use strict';

const road = new MessageChannel();
const channels = Array.from({ length: 17 }, () => new MessageChannel());
const ports = channels.map((channel) => channel.port2);
try {
  road.port1.postMessage('', ports);
} catch ({ name, message }) {
  console.log(`${name}: ${message}`);
}
road.port2.onmessage = (event) => {
  console.log(`${event.ports.length} ports`);
  close();
};
road.port1.postMessage('', ports.slice(1));
