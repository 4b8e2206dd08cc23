// Messages through Node's MessageChannel, between the main thread and a Worker that has one of its
// ports: so many `texts`, or `values` that the text stands for; with `trips` so many there and back;
// and with `ports` so many posts with one port each, which the Worker closes. The channels whose
// ports are sent are made before the first post. Both threads read one clock. Prints how long it
// took, in microseconds, and how many messages and how many bytes of text came.
// usage: node reference.mjs texts|values|trips|ports COUNT
import { MessageChannel, Worker, isMainThread, parentPort, workerData } from "node:worker_threads";

const TEXT = '{"a":1}';

function askAll(port, count) {
  let left = count;
  let bytes = 0;
  const begin = process.hrtime.bigint();
  port.on("message", (text) => {
    bytes += text.length;
    if (--left > 0) return port.postMessage(TEXT);
    console.log(`${(process.hrtime.bigint() - begin) / 1000n} ${count} ${bytes}`);
    port.close();
  });
  port.postMessage(TEXT);
}

function answerAll(port) {
  port.on("message", (text) => port.postMessage(text));
}

function sendAll(port, count, kind) {
  const message = kind === "values" ? JSON.parse(TEXT) : TEXT;
  const channels = Array.from(
    { length: kind === "ports" ? count : 0 }, () => new MessageChannel(),
  );
  const begin = process.hrtime.bigint();
  for (const { port2: sent } of channels) port.postMessage({ text: TEXT, sent }, [sent]);
  for (let posted = channels.length; posted < count; posted++) port.postMessage(message);
  port.once("message", ({ end, bytes }) => {
    console.log(`${(end - begin) / 1000n} ${count} ${bytes}`);
    port.close();
  });
}

function takeAll(port, count) {
  let left = count;
  let bytes = 0;
  port.on("message", (message) => {
    bytes += message.a === 1 ? TEXT.length : (message.text ?? message).length;
    message.sent?.close();
    if (--left > 0) return;
    port.postMessage({ end: process.hrtime.bigint(), bytes });
    port.close();
  });
}

if (isMainThread) {
  const [kind, count] = [process.argv[2], Number(process.argv[3])];
  const { port1, port2 } = new MessageChannel();
  const worker = new Worker(new URL(import.meta.url), {
    workerData: { kind, port: port2, count },
    transferList: [port2],
  });
  worker.once("message", () => (kind === "trips" ? askAll : sendAll)(port1, count, kind));
} else {
  const { kind, port, count } = workerData;
  if (kind === "trips") answerAll(port);
  else takeAll(port, count);
  parentPort.postMessage("ready");
}
