// Does step files on Node's MessageChannel and BroadcastChannel. tests/node draws them, and says
// more.
//
// Standard input has a line of JSON for each file: pairs of a step line and its outcome. A take has
// to give the same body and the same ports here, and a cast has to be refused where it is there. A
// line of JSON is printed for each file: how much was compared, and what is wrong, or null.
import { BroadcastChannel, MessageChannel, receiveMessageOnPort } from 'node:worker_threads';
import { readFileSync } from 'node:fs';

// The text in which the program prints a body: the keys of these objects are plain letters.
function compact(value) {
  if (Array.isArray(value)) return `[${value.map(compact).join(',')}]`;
  if (value === null || typeof value !== 'object') return JSON.stringify(value);
  const members = Object.keys(value).sort().map((key) => `"${key}":${compact(value[key])}`);
  return `{${members.join(',')}}`;
}

class File {
  // No other file has this name.
  constructor(name) {
    this.name = name;
    // By end: its port or channel, null of a port that was sent.
    this.ports = [];
    this.counts = { takes: 0, bodies: 0, casts: 0 };
  }

  post(from, list, body) {
    const numbers = list === '-' ? [] : list.split(',').map(Number);
    const ports = numbers.map((number) => this.ports[number]);
    this.ports[from].postMessage({ body, numbers, ports }, ports);
    for (const number of numbers) this.ports[number] = null;
  }

  // Whether a cast isn't refused.
  cast(from, body) {
    this.counts.casts += 1;
    try {
      this.ports[from].postMessage({ body, numbers: [], ports: [] });
    } catch (error) {
      if (error.name !== 'InvalidStateError') throw error;
      return false;
    }
    return true;
  }

  // What stands in an outcome behind the name of what was taken, or null where that is no message.
  take(end) {
    const message = receiveMessageOnPort(this.ports[end])?.message;
    this.counts.takes += 1;
    if (!message) return null;
    this.counts.bodies += 1;
    const { body, numbers, ports } = message;
    if (ports.length !== numbers.length) throw new Error('Node has lost a port');
    numbers.forEach((number, at) => { this.ports[number] = ports[at]; });
    return `${numbers.length === 0 ? '' : ` with ${numbers.join(',')}`} ${compact(body)}`;
  }

  // Does a step line, and gives what Node says of it, and what the outcome says.
  compare(line, outcome) {
    const [, word, number, rest] = /^(\w+) (\S+) ?(.*)$/s.exec(line);
    const space = rest.indexOf(' ');
    if (word === 'channel') {
      const { port1, port2 } = new MessageChannel();
      this.ports.push(port1, port2);
    } else if (word === 'member') {
      this.ports.push(new BroadcastChannel(`${this.name} ${rest}`));
    } else if (word === 'close') {
      this.ports[number].close();
    } else if (word === 'post' && outcome !== 'closed') {
      // A post at a closed port is refused, and its ports stay; Node would lose them.
      this.post(number, rest.slice(0, space), JSON.parse(rest.slice(space)));
    } else if (word === 'cast') {
      return [this.cast(number, JSON.parse(rest.slice(space))), outcome !== 'invalid-state'];
    } else if (word === 'take' && outcome !== 'again') {
      // The taker of the program goes on from a queue that is left in a step of its own.
      return [this.take(number), /^got \d+:\d+ from 0(.*)$/s.exec(outcome)?.[1] ?? null];
    }
    return [null, null];
  }

  // What is wrong with the outcomes of the first line that Node does otherwise, or null.
  difference(steps) {
    for (const [at, [line, outcome]] of steps.entries()) {
      const [found, told] = this.compare(line, outcome);
      if (found !== told) return `step line ${at + 1}, ${line}: Node has ${found}, not ${outcome}`;
    }
    return null;
  }
}

for (const [name, text] of readFileSync(0, 'utf8').split('\n').slice(0, -1).entries()) {
  const file = new File(name);
  let wrong;
  try {
    wrong = file.difference(JSON.parse(text));
  } catch (error) {
    wrong = String(error);
  }
  for (const port of file.ports) port?.close();
  console.log(JSON.stringify({ ...file.counts, wrong }));
}
