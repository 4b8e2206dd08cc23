// Writes a small fixed log by the Recorder of record/hublog.mjs, and prints what wrong arguments
// are refused by. usage: node plain.mjs FILE

import { Recorder } from '../../record/hublog.mjs';
import { show } from './showing.mjs';

const ports = [...Array(15).keys(), 65_535];

function write(log) {
  log.put(1, 0, 0, 0, [], { count: 1 });
  log.put(65_535, 31, 65_535, 2n ** 62n - 1n, ports, null);
  log.got(2, 0, 0, 0, [5], [true, 'a\nb']);
  log.put(1, 0, 0, 1, [], 1.5);
  log.put(1, 0, 0, 2, [], { digest: 'fnv1a64 85944171f73967e8 of 6 bytes' });
  log.putNotice(1, 0, 0, 3);
  log.gotNotice(2, 0, 0, 1);
  log.adopted(5, 1);
  log.closed(2);
}

function refuse() {
  throw new Error('full');
}

const path = process.argv[2];
const log = new Recorder(path, 3);
write(log);
for (const act of [
  () => new Recorder(path, 16),
  () => new Recorder(path, 3),
  () => log.put(65_536, 0, 0, 0, [], 1),
  () => log.put(1, 32, 0, 0, [], 1),
  () => log.put(1, 0, -1, 0, [], 1),
  () => log.got(1, 0, 0, 2n ** 62n, [], 1),
  () => log.put(1, 0, 0, 0, [65_536], 1),
  () => log.put(1, 0, 0, 0, [4, 4], 1),
  () => log.put(1, 0, 0, 0, [...Array(17).keys()], 1),
  () => log.adopted(65_536, 0),
  () => log.adopted(1, true),
  () => log.closed(65_536),
  () => log.closed(2),
  () => log.putNotice(1, 32, 0, 0),
  () => log.gotNotice('1', 0, 0, 0),
  () => log.put(1, 0, 0, 0, [], 1),
  () => log.putNotice(1, 0, 0, 1),
  () => log.putting(1, 0, 0, 4, [], 'refused', refuse),
]) show(act);
// What was refused isn't there, and may be put again.
console.log(log.putting(1, 0, 0, 4, [], 'accepted', () => 'handed over'));
log.finish();
log.finish();
show(() => log.closed(7));

// A function takes the text behind the act.
const told = [];
const sink = new Recorder((text) => told.push(text), 4);
show(() => sink.putting(1, 0, 0, 0, [], 'refused', refuse));
sink.putting(1, 0, 0, 0, [], 'accepted', () => told.push('act\n'));
sink.finish();
show(() => sink.put(1, 0, 0, 1, [], 1));
process.stdout.write(told.join(''));
