// The worker of the scripts beside this: it counts what it is sent, answers, or uses a port.
'use strict';

let count = 0;
onmessage = ({ data, ports }) => {
  if (data.port) ports[0].postMessage(data.id);
  else if (data.isTrip) postMessage(data);
  else if (data.isLast) postMessage(count);
  else count++;
};
postMessage('ready');
