// Reads step lines, and does JSON.parse and JSON.stringify on the body of each `post 0 - BODY`.
// Prints how many microseconds these calls took, and then the bodies.
// usage: node reference.mjs < STEPS
import { readFileSync, writeFileSync } from "node:fs";

const START = "post 0 - ";
const lines = readFileSync(0, "utf8").split("\n");
const output = [];
const begin = process.hrtime.bigint();
for (const line of lines) {
  if (line.startsWith(START)) output.push(JSON.stringify(JSON.parse(line.slice(START.length))));
}
const micros = (process.hrtime.bigint() - begin) / 1000n;
writeFileSync(1, `${micros}\n${output.join("\n")}\n`);
