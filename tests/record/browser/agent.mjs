// What the agents of the browser tests share: where a log goes, and the random actions.
import { record } from '/record/hublog.mjs';
import { Actor } from '../actor.mjs';

export const seed = Number(new URL(globalThis.location.href).searchParams.get('seed'));

// Posts the log of an agent to the server, piece by piece, in order.
class Sender {
  constructor(agent) {
    this.url = `/log?seed=${seed}&agent=${agent}`;
    this.waiting = '';
    this.sent = Promise.resolve();
  }

  take(text) {
    if (this.waiting === '') this.sent = this.sent.then(() => this.send());
    this.waiting += text;
  }

  async send() {
    const body = this.waiting;
    this.waiting = '';
    await fetch(this.url, { method: 'POST', body });
  }
}

let sender;

export const allSent = () => sender.sent;

export function begin(agent) {
  sender = new Sender(agent);
  return record({ agent, sink: (text) => sender.take(text) });
}

export const later = (milliseconds) => new Promise((done) => { setTimeout(done, milliseconds); });

// It sends no port that it started, and closes a port only while nothing can wait there.
export class BrowserActor extends Actor {
  constructor(hub) {
    super(hub, seed * 32 + hub.agent, () => later(0));
    this.started = new Set();
  }

  sendable() {
    return this.held.filter((port) => !this.started.has(port));
  }

  listen() {
    const port = this.pick(this.held);
    if (!port) return;
    this.started.add(port);
    if (this.random(2)) {
      port.onmessage = (event) => this.take(event.data);
    } else {
      port.addEventListener('message', (event) => this.take(event.data));
      port.start();
    }
  }

  close() {
    if (this.random(3)) return;
    const { port1, port2 } = new this.hub.MessageChannel();
    port1.close();
    port2.close();
  }
}

// An agent beside the page: acts, says that it is done, and ends when it is told to.
export function takePart(hub, page) {
  const actor = new BrowserActor(hub);
  return {
    take(message) {
      if (message === 'end') hub.end();
      else actor.take(message);
    },
    async act() {
      await actor.act([page]);
      page.postMessage('done');
    },
  };
}
