// A small shop on Node's own channels, which is recorded: a port is sent with what waits for it, comes
// back, and is used at both places.
// usage: node shop.mjs FOLDER
import { once } from 'node:events';
import { record } from '../../record/hublog.mjs';

const hub = record({ folder: process.argv[2] });

// The next messages of a port or worker.
async function next(target, count = 1) {
  const found = [];
  while (found.length < count) found.push((await once(target, 'message'))[0]);
  return found;
}

async function customer() {
  const { port1, port2 } = new hub.MessageChannel();
  const shop = new hub.Worker(new URL(import.meta.url), {
    argv: process.argv.slice(2), workerData: { open: true },
  });
  port1.postMessage('teapot');
  port1.postMessage('cup');
  shop.postMessage({ orders: port2 }, [port2]);
  port1.postMessage('spoon');
  const [total] = await next(port1);
  port1.postMessage({ paid: total });
  const [{ orders }] = await next(shop);
  port1.postMessage('thanks');
  await next(orders);
  port1.close();
  orders.close();
  shop.postMessage('end');
}

async function shop() {
  const [{ orders }] = await next(hub.parentPort);
  await next(orders, 3);
  orders.postMessage({ cents: 4210 });
  await next(orders);
  hub.parentPort.postMessage({ orders }, [orders]);
  await next(hub.parentPort);
  process.exit();
}

await (hub.agent === 0 ? customer() : shop());
