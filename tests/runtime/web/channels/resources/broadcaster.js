'use strict';

const channel = new BroadcastChannel('with a worker');
channel.onmessage = ({ data }) => channel.postMessage(`got ${data}`);
channel.postMessage('hello');
