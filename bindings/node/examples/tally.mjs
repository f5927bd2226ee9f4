// Hands a plug-in numbers, of which it keeps a sum; at the word "new" it begins anew, as for another client.
//
//     node tally.mjs IMAGE NUMBER|new ..    # IMAGE is that of examples/run/tally.s
import { readFileSync } from "node:fs";
import { load } from "../index.mjs";

const [image, ...words] = process.argv.slice(2);
const world = await load(readFileSync(image));
const [plugin] = world.sandboxes;
const start = plugin.pc;
plugin.stop();
for (const word of words) {
  if (word === "new") {
    plugin.reset();
    plugin.stop();
  } else {
    console.log(plugin.call(start, Number(word), { steps: 1000 }));
  }
}
world.close();
