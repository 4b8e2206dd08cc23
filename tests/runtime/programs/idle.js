// A window and three workers that wait for nothing.
'use strict';

for (let at = 0; at < 3; at++) new Worker('waits.js');
const { port1 } = new MessageChannel(), channel = new BroadcastChannel('idle');
port1.onmessage = channel.onmessage = () => {};
setTimeout(close, self.wait);
