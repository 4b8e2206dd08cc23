// Runs a script of two windows, which start their queues, send each other messages and wait for
// them. Each window is a Worker, with a MessageChannel between them; a body is posted as the JSON
// value that it is. With `logged` a Worker keeps an entry for each message that it has posted and
// for each that has come, and the process prints them, as `messagehub run` prints its logs. With
// `bare` none is kept, and it prints how many messages came.
// usage: node reference.mjs logged|bare < SCRIPT
import { once } from "node:events";
import { readFileSync } from "node:fs";
import { MessageChannel, Worker, isMainThread, parentPort, workerData } from "node:worker_threads";

// Does the actions of one agent, up to each wait that isn't over.
function act({ agent, actions, port, logged }) {
  const entries = [];
  let next = 0;
  let put = 0;
  let got = 0;
  let due = 0;

  function goOn() {
    while (got >= due) {
      if (next === actions.length) {
        port.close();
        parentPort.postMessage({ got, entries });
        return;
      }
      const { send, body, wait } = actions[next];
      next += 1;
      if (wait !== undefined) due += wait;
      if (send === undefined) continue;
      port.postMessage(body);
      if (logged) entries.push({ kind: "put", end: send, from: agent, number: put, body });
      put += 1;
    }
  }

  port.on("message", (body) => {
    if (logged) entries.push({ kind: "got", end: agent, from: 1 - agent, number: got, body });
    got += 1;
    goOn();
  });
  goOn();
}

function textOf({ kind, end, from, number, body }) {
  return `${kind} ${end} 0 ${from}:${number} - ${JSON.stringify(body)}\n`;
}

async function main() {
  const [keeping] = process.argv.slice(2);
  if (!["logged", "bare"].includes(keeping) || process.argv.length !== 3) {
    console.error("usage: node reference.mjs logged|bare < SCRIPT");
    process.exit(2);
  }
  const lines = readFileSync(0, "utf8").trimEnd().split("\n").map((line) => JSON.parse(line));
  const { port1, port2 } = new MessageChannel();
  const workers = [port1, port2].map((port, agent) => {
    const actions = lines.filter(({ at }) => at === agent);
    const data = { agent, actions, port, logged: keeping === "logged" };
    return new Worker(new URL(import.meta.url), { workerData: data, transferList: [port] });
  });
  const reports = await Promise.all(workers.map((worker) => once(worker, "message")));
  const logs = reports.map(([report]) => report);
  if (keeping === "bare") console.log(logs.reduce((sum, { got }) => sum + got, 0));
  else process.stdout.write(logs.map(({ entries }) => entries.map(textOf).join("")).join(""));
}

if (isMainThread) await main();
else act(workerData);
