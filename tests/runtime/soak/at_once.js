// Workers that live at once, with ports each, in `rounds` rounds. Each port carries messages there
// and back; then the workers are terminated, and what is left in their ports is lost with them.
'use strict';

const workers = 200, ports = 10, messages = 5, most = self.rounds ?? 10;
let rounds = 0, total = 0;

function round() {
  const all = [];
  let answers = 0;
  for (let at = 0; at < workers; at++) {
    const worker = new Worker('many_ports.js'), sent = [];
    all.push(worker);
    for (let port = 0; port < ports; port++) {
      const { port1, port2 } = new MessageChannel();
      for (let message = 0; message < messages; message++) port1.postMessage(message);
      port1.onmessage = ({ data }) => {
        total += data;
        if (++answers === workers * ports * messages) setTimeout(end, 0, all);
      };
      sent.push(port2);
    }
    worker.postMessage('', sent);
  }
}

function end(all) {
  for (const worker of all) worker.terminate();
  rounds++;
  if (rounds < most) setTimeout(round, 50);
  else console.log(`${rounds} rounds, ${total}`);
}
round();
