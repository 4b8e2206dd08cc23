'use strict';

const workers = [];
try {
  for (;;) workers.push(new Worker('waits.js'));
} catch ({ name, message }) {
  console.log(`${workers.length} workers, then ${name}: ${message}`);
}
close();
