// Messages round a ring of Node's Workers, each of which does what an agent of the script does: in
// each round it posts so many messages to the next Worker, and waits until as many have come to it
// from the one before. From each Worker to the next goes a MessageChannel. The Workers and the
// channels are made once, before the first run. With `values` a message is the JSON value, with
// `texts` its text. With `logged` each Worker keeps an entry for each message that it has posted
// and for each that has come, as a log of the hub does; the entry holds the message itself and no
// copy of it. With `bare` it keeps none.
//
// One run more is made first, which isn't timed, so that the code is compiled by then. A run lasts
// from the moment at which the first Worker begins to that at which the last has all its messages.
// All threads read one clock. Prints how long the runs took, in microseconds, and how many messages
// came.
// usage: node reference.mjs AGENTS ROUNDS MESSAGES RUNS values|texts logged|bare
import { once } from "node:events";
import { MessageChannel, Worker, isMainThread, parentPort, workerData } from "node:worker_threads";

const TEXT = '{"a":1}';
const NO_PORTS = [];

function entryOf(kind, end, number, body) {
  return { kind, end, line: 0, epoch: 0, number, ports: NO_PORTS, body };
}

// Does the actions of one agent, run after run.
function serve({ agent, next, rounds, messages, body, logged, source, target }) {
  let begin = null;
  let entries = [];
  let round = 0;
  let put = 0;
  let got = 0;

  function post() {
    target.postMessage(body);
    if (logged) entries.push(entryOf("put", next, put, body));
    put += 1;
  }

  // What has come of the run that is over belongs to it, since nobody begins the next one before.
  function report() {
    parentPort.postMessage({ begin, end: process.hrtime.bigint(), got, kept: entries.length });
    begin = null;
    entries = [];
    round = put = got = 0;
  }

  // Goes on to the next wait that isn't over.
  function goOn() {
    while (got >= round * messages) {
      if (round === rounds) return report();
      for (let count = 0; count < messages; count += 1) post();
      round += 1;
    }
  }

  source.on("message", (message) => {
    if (logged) entries.push(entryOf("got", agent, got, message));
    got += 1;
    if (begin !== null) goOn();
  });
  parentPort.on("message", () => {
    begin = process.hrtime.bigint();
    goOn();
  });
  parentPort.postMessage("ready");
}

// What the Worker tells next.
async function told(worker) {
  const [message] = await once(worker, "message");
  return message;
}

function workersOf({ agents, ...actions }) {
  const channels = Array.from({ length: agents }, () => new MessageChannel());
  return channels.map(({ port1: target }, agent) => {
    const { port2: source } = channels[(agent + agents - 1) % agents];
    const next = (agent + 1) % agents;
    return new Worker(new URL(import.meta.url), {
      workerData: { agent, next, source, target, ...actions },
      transferList: [source, target],
    });
  });
}

async function timeRun(workers) {
  const reports = workers.map(told);
  for (const worker of workers) worker.postMessage("begin");
  const runs = await Promise.all(reports);
  const begin = runs.map((run) => run.begin).reduce((a, b) => (a < b ? a : b));
  const end = runs.map((run) => run.end).reduce((a, b) => (a > b ? a : b));
  const total = (list) => list.reduce((a, b) => a + b, 0);
  return {
    time: end - begin,
    got: total(runs.map((run) => run.got)),
    kept: total(runs.map((run) => run.kept)),
  };
}

async function main() {
  const numbers = process.argv.slice(2, 6).map(Number);
  const [kind, keeping] = process.argv.slice(6);
  const areNumbers = numbers.length === 4 && numbers.every(Number.isSafeInteger);
  const areKinds = ["values", "texts"].includes(kind) && ["logged", "bare"].includes(keeping);
  if (!areNumbers || !areKinds || process.argv.length !== 8) {
    console.error("usage: node reference.mjs AGENTS ROUNDS MESSAGES RUNS values|texts logged|bare");
    process.exit(2);
  }
  const [agents, rounds, messages, runs] = numbers;
  const body = kind === "values" ? JSON.parse(TEXT) : TEXT;
  const logged = keeping === "logged";
  const workers = workersOf({ agents, rounds, messages, body, logged });
  await Promise.all(workers.map(told));
  await timeRun(workers);
  let time = 0n;
  let count = 0;
  for (let run = 0; run < runs; run += 1) {
    const { time: more, got, kept } = await timeRun(workers);
    if (kept !== (logged ? 2 * got : 0)) throw new Error(`${kept} entries of ${got} messages`);
    time += more;
    count += got;
  }
  console.log(`${time / 1000n} ${count}`);
  await Promise.all(workers.map((worker) => worker.terminate()));
}

if (isMainThread) await main();
else serve(workerData);
