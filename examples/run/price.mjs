// Measures a turn with its reply from node, by `turn` and in a loop over `events`: node price.mjs IMAGE TURNS ROUNDS, for price.py,
// which says what the image does. Prints the two medians, in microseconds.
import { readFileSync } from "node:fs";
import { load } from "../../bindings/node/index.mjs";

const [image, turns, rounds] = process.argv.slice(2);
const [sandbox] = (await load(readFileSync(image))).sandboxes;

function byTurn() {
  for (let left = Number(turns); left > 0; left--) sandbox.turn(1000).reply(0);
}

function byEvents() {
  let left = Number(turns);
  for (const event of sandbox.events(2 ** 40)) {
    event.reply(0);
    if (--left === 0) return;
  }
}

function microseconds(measured) {
  const times = Array.from({ length: Number(rounds) }, () => {
    const begun = performance.now();
    measured();
    return ((performance.now() - begun) / Number(turns)) * 1000;
  });
  return times.sort((a, b) => a - b)[Math.floor(times.length / 2)];
}

console.log(...[byTurn, byEvents].map((measured) => microseconds(measured).toFixed(2)));
