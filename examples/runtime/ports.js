// A port is sent while messages wait at it, and both its messages come out in order.
'use strict';

const road = new MessageChannel();
const { port1: near, port2: far } = new MessageChannel();

near.postMessage('early');
road.port1.postMessage('here is a port', [far]);
near.postMessage('late');

road.port2.onmessage = ({ data, ports: [port] }) => {
  console.log(`road: ${data}`);
  port.onmessage = (event) => {
    console.log(`far: ${event.data}`);
    if (event.data === 'late') port.postMessage('both came');
  };
};
near.onmessage = ({ data }) => {
  console.log(`near: ${data}`);
  near.close();
  road.port1.close();
};
