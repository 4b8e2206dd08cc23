'use strict';

// The next message of a port, which is started.
const next = (port) => new Promise((resolve) => {
  port.addEventListener('message', resolve, { once: true });
  port.start?.();
});

// The data of so many messages.
const take = (port, count) => new Promise((resolve) => {
  const got = [];
  port.addEventListener('message', function listener({ data }) {
    got.push(data);
    if (got.length < count) return;
    port.removeEventListener('message', listener);
    resolve(got);
  });
  port.start?.();
});

const later = (time) => new Promise((resolve) => { setTimeout(resolve, time); });

// What a value is behind a clone over a channel.
async function sent(value, list) {
  const { port1, port2 } = new MessageChannel();
  port1.postMessage(value, list);
  const { data } = await next(port2);
  port1.close();
  return data;
}
