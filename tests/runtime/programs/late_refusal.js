// A list is refused for its last member, once the port before it was taken: the port stays.
'use strict';

const road = new MessageChannel(), { port1, port2 } = new MessageChannel();
const buffer = new ArrayBuffer(8);
const detaches = { get it() { return structuredClone(buffer, { transfer: [buffer] }); } };
try {
  road.port1.postMessage(detaches, [port2, buffer]);
} catch ({ name }) {
  console.log(name);
}
port2.onmessage = ({ data }) => {
  console.log(data);
  close();
};
port1.postMessage('at the port that stayed');
