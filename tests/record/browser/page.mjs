// The page: two workers, a frame and a service worker, who post at it and at one another.
import { begin, BrowserActor, later, seed } from './agent.mjs';

const MODULE = { type: 'module' };
const { searchParams } = new URL(globalThis.location.href);
const last = Number(searchParams.get('last'));

async function serviceWorker() {
  const url = `service.mjs?seed=${seed}`;
  const registration = await navigator.serviceWorker.register(url, {
    ...MODULE, scope: `scope-${seed}/`,
  });
  while (!registration.active) await later(5);
  return registration;
}

function newFrame() {
  const frame = document.createElement('iframe');
  frame.src = `frame.html?seed=${seed}`;
  const loaded = new Promise((done) => { frame.onload = done; });
  document.body.append(frame);
  return loaded.then(() => frame.contentWindow);
}

async function main() {
  const hub = begin(0);
  const actor = new BrowserActor(hub);
  let acting = 4;
  const take = (event) => {
    if (event.data === 'done') acting -= 1;
    else actor.take(event.data);
  };
  const hear = (target) => {
    hub.listen(target);
    target.onmessage = take;
  };
  hear(globalThis);
  hear(navigator.serviceWorker);
  const workers = [1, 2].map((agent) => {
    const worker = new Worker(`worker.mjs?seed=${seed}&agent=${agent}`, MODULE);
    hear(worker);
    return hub.to(worker, agent);
  });
  const registration = await serviceWorker();
  const service = hub.to(registration.active, 4);
  service.postMessage('begin');
  const frame = hub.to(await newFrame(), 3, { targetOrigin: '*' });
  const targets = [...workers, frame, service];
  await actor.act(targets);
  while (acting > 0) await later(5);
  await later(50);
  targets.forEach((target) => target.postMessage('end'));
  hub.end();
  while ((await (await fetch(`/ended?seed=${seed}`)).text()) !== '5') await later(20);
  await registration.unregister();
  if (seed < last) globalThis.location.search = `?seed=${seed + 1}&last=${last}`;
  else await fetch('/done', { method: 'POST', body: navigator.userAgent });
}

globalThis.onerror = (message) => fetch('/failed', { method: 'POST', body: message });
main().catch((error) => fetch('/failed', { method: 'POST', body: String(error.stack ?? error) }));
