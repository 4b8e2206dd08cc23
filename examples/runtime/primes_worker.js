'use strict';

const isPrime = (number) => {
  for (let at = 2; at * at <= number; at++) if (number % at === 0) return false;
  return number > 1;
};

onmessage = ({ data: { from, to } }) => {
  const found = [];
  for (let number = from; number < to; number++) if (isPrime(number)) found.push(number);
  const primes = Uint32Array.from(found);
  postMessage({ name, primes }, [primes.buffer]);
};
