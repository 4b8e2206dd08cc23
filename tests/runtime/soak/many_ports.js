'use strict';

onmessage = ({ ports }) => {
  for (const port of ports) port.onmessage = ({ data }) => port.postMessage(data + 1);
};
