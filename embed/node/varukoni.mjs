// Varukoni's hub in Node: step lines in, outcome lines out, and the web's messaging over it.
//
//     const hub = new Hub();
//     hub.line('agent -');      // 'agent 0'
//     hub.line('channel 0');    // 'ends 0 1'
//
// `line` and `said` give text without its LF. A text that is no step line throws an Error with
// the name BadLine, whose `kind` names the first test that it fails, and the hub goes on. Errors
// for want of memory have the names NoMemory (nothing was changed), NoRoom (`said` gives the
// outcome line) and Lost (the hub runs no line any more); one of a hub that was closed has the
// name Closed. Half of a surrogate pair in a text is read as U+FFFD. Where an outcome is `not-now`,
// print the lines so far into a file: `tools/why FILE` says which test failed.
//
// `steps(text)` and `check(text)` give { status, text } of `messagehub`; `readScript(text)`
// gives nothing, or throws BadLine with the first bad line. docs/FORMATS.md has the formats,
// docs/EMBEDDING.md the rest.
import { createRequire } from 'node:module';
import { dirname, join } from 'node:path';
import { existsSync } from 'node:fs';
import { fileURLToPath } from 'node:url';

const ADDON = 'varukoni.node';

// The addon lies beside this file, or where embed/build has left it.
function load() {
  const here = dirname(fileURLToPath(import.meta.url));
  const places = [here, join(here, '..', 'out', 'node')].map((folder) => join(folder, ADDON));
  const found = places.find((place) => existsSync(place));
  if (!found) {
    throw new Error(`${ADDON} is in none of ${places.map(dirname)}: run embed/build first`);
  }
  return createRequire(import.meta.url)(found);
}

export const { Hub, steps, check, readScript } = load();
