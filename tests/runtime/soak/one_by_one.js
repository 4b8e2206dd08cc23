// Workers one after another, each of which answers once and ends by itself: so many, in rounds.
'use strict';

const rounds = 4, each = 250;
let count = 0;

function next() {
  if (count === rounds * each) return console.log(`${count} workers`);
  const worker = new Worker('answer.js');
  worker.onmessage = ({ data }) => {
    if (data !== count) throw new Error(`${data} came, and not ${count}`);
    count++;
    next();
  };
  worker.postMessage(count);
}
next();
