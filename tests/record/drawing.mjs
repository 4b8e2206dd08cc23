// What random programs draw, on Node and in browsers.

/** A small generator with a seed: numbers below a bound, so that a difference can be seen again. */
export function randomOf(seed) {
  let state = seed >>> 0;
  return (below) => {
    state = (Math.imul(state, 1664525) + 1013904223) >>> 0;
    return Math.floor((state / 2 ** 32) * below);
  };
}

/** A value that JSON has. The keys of its objects are plain letters. */
export function drawnValue(random, depth = 0) {
  switch (random(depth > 2 ? 4 : 6)) {
    case 0: return null;
    case 1: return random(2) === 0;
    case 2: return random(2_000_000) - 1_000_000;
    case 3: return 'a"\\\u00e9\u{1f600}\n'.slice(0, random(8)).toWellFormed();
    case 4: return Array.from({ length: random(4) }, () => drawnValue(random, depth + 1));
    default: {
      const member = () => [`k${random(5)}`, drawnValue(random, depth + 1)];
      return Object.fromEntries(Array.from({ length: random(3) }, member));
    }
  }
}

/** One of the items, or undefined where there is none. */
export function picked(random, items) {
  return items.length === 0 ? undefined : items[random(items.length)];
}
