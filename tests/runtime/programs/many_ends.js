'use strict';

let channels = 0;
try {
  for (;;) { new MessageChannel(); channels++; }
} catch ({ name, message }) {
  console.log(`${channels} channels, then ${name}: ${message}`);
}
try {
  new BroadcastChannel('one more');
} catch ({ name }) {
  console.log(name);
}
