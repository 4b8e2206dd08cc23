// What a post leaves for which the hub has no memory: each is made again until it goes through.
'use strict';

const road = new MessageChannel(), { port1, port2 } = new MessageChannel();
const buffer = new Uint8Array([1, 2, 3]).buffer;
const got = [];
let refused = 0;

port2.onmessage = () => got.push('at the port that was refused');
function post(...words) {
  for (;;) {
    try {
      return road.port1.postMessage(...words);
    } catch (error) {
      refused++;
      port1.postMessage('');
    }
  }
}
post('first');
post({ port2, buffer }, [port2]);
post('third');
road.port2.onmessage = ({ data, ports: [port] }) => {
  got.push(typeof data === 'string' ? data : `a port and ${data.buffer.byteLength} bytes`);
  if (port) port.onmessage = () => got.push('at the port where it came');
  if (got.filter((it) => !it.startsWith('at')).length < 3) return;
  setTimeout(() => { console.log(`${refused > 0} ${got.sort().join(', ')}`); close(); }, 20);
};
