// A service that takes requests at one port, each of which brings the port for its answer.
'use strict';

const { port1: service, port2: client } = new MessageChannel();
const stock = new Map([['tea', 3], ['salt', 0]]);

service.onmessage = ({ data: { order }, ports: [reply] }) => {
  console.log(`service: ${order}`);
  if (!stock.has(order)) reply.postMessage({ refused: 'unknown' });
  else if (stock.get(order) === 0) reply.postMessage({ refused: 'sold out' });
  else reply.postMessage({ left: stock.set(order, stock.get(order) - 1).get(order) });
  reply.close();
};

function ask(order) {
  const { port1, port2 } = new MessageChannel();
  client.postMessage({ order }, [port2]);
  return new Promise((resolve) => {
    port1.onmessage = ({ data }) => { port1.close(); resolve(data); };
  });
}

(async () => {
  for (const order of ['tea', 'salt', 'gold', 'tea']) {
    const { left, refused } = await ask(order);
    console.log(`client: ${order}, ${refused ?? `${left} left`}`);
  }
  client.close();
  service.close();
})();
