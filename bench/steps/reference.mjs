// The same job as `messagehub steps` does for `agent -`, `channel A`, `start E`, `post P - BODY`
// and `take E`, as plain Node: split, JSON.parse, an array queue, JSON.stringify.
import { readFileSync, writeSync } from "node:fs";

const lines = readFileSync(0, "utf8").split("\n");
if (lines[lines.length - 1] === "") lines.pop();

let agents = 0;
const ends = [];
const output = [];

function post(end, body) {
  const target = ends[end.peer];
  const number = target.put++;
  target.queue.push({ number, body });
  return `accepted 0:${number}`;
}

function take(end) {
  if (!end.enabled) return "disabled";
  if (end.head === end.queue.length) return "empty";
  const envelope = end.queue[end.head];
  end.queue[end.head++] = undefined;
  return `got 0:${envelope.number} from 0 ${JSON.stringify(envelope.body)}`;
}

for (const line of lines) {
  const space = line.indexOf(" ");
  const word = line.slice(0, space);
  const rest = line.slice(space + 1);
  switch (word) {
    case "agent":
      output.push(`agent ${agents++}`);
      break;
    case "channel": {
      const e = ends.length;
      for (const peer of [e + 1, e]) {
        ends.push({ peer, put: 0, queue: [], head: 0, enabled: false });
      }
      output.push(`ends ${e} ${e + 1}`);
      break;
    }
    case "start":
      ends[Number(rest)].enabled = true;
      output.push("started");
      break;
    case "post": {
      const next = rest.indexOf(" ");
      const body = rest.slice(rest.indexOf(" ", next + 1) + 1);
      output.push(post(ends[Number(rest.slice(0, next))], JSON.parse(body)));
      break;
    }
    case "take":
      output.push(take(ends[Number(rest)]));
      break;
    default:
      throw new Error(`unknown step: ${line}`);
  }
}

const bytes = Buffer.from(output.join("\n") + "\n");
for (let at = 0; at < bytes.length; ) at += writeSync(1, bytes, at);
