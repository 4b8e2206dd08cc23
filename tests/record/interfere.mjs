// A fault between the recorder and the native post, on Node and in browsers.

export const BODIES = ['one', 'two', 'three'];

// What comes out for the message of a number, from 0.
function passed(number, payloads, change) {
  const payload = payloads[number];
  const { hublog, body } = payload;
  const second = {
    none: [payload],
    drop: [],
    double: [payload, payload],
    swap: [],
    change: [{ ...payload, body: `${body}!` }],
    rename: [{ ...payload, hublog: [...hublog.slice(0, -1), 7] }],
  }[change];
  if (number === 1) return second;
  return number === 2 && change === 'swap' ? [payload, payloads[1]] : [payload];
}

// Changes what becomes of the second message that the class posts: drop, double, swap (with the
// third), change, rename or none.
export function interfere({ prototype }, change) {
  const post = prototype.postMessage;
  const payloads = [];
  prototype.postMessage = function postMessage(payload, ...words) {
    if (!payload?.hublog) return post.call(this, payload, ...words);
    payloads.push(payload);
    const found = passed(payloads.length - 1, payloads, change);
    found.forEach((it) => post.call(this, it, ...words));
    return undefined;
  };
}
