// Runs the step lines of standard input one after the other, and prints their outcome lines at
// the end.
import { readFileSync, writeSync } from 'node:fs';

const { Hub } = await import(`${process.argv[2]}/node/varukoni.mjs`);
const hub = new Hub();
const said = [];
for (const line of readFileSync(0, 'utf8').split('\n').slice(0, -1)) said.push(hub.line(line));
const text = Buffer.from(`${said.join('\n')}\n`);
for (let at = 0; at < text.length;) at += writeSync(1, text, at);
