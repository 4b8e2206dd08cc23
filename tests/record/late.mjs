// What Node delivers at a port that its agent has closed, which is recorded.
// usage: node late.mjs FOLDER WAY        (WAY is listener or receive)
import { record } from '../../record/hublog.mjs';

const hub = record({ folder: process.argv[2] });
const { port1, port2 } = new hub.MessageChannel();
port1.postMessage('one');
port1.postMessage('two');
if (process.argv[3] === 'listener') {
  port2.on('message', () => port2.close());
} else {
  port2.close();
  hub.receiveMessageOnPort(port2);
}
