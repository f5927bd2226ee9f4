// Calls both ways: node order.mjs IMAGE, of examples/run/order_plugin.c. The plug-in's qsort sorts by a function of the host,
// which calls a function of the plug-in while that call waits; and the host sorts by the same function of the plug-in.
import { readFileSync } from "node:fs";
import { Plugin } from "../index.mjs";

const NUMBERS = [17, 42, 93, 28, 5, 61];

const compare = (a, b) => plugin.exports.digit(a) - plugin.exports.digit(b);

const plugin = await Plugin.load(readFileSync(process.argv[2]), { handlers: { compare } });
const at = plugin.address("numbers");
plugin.sandbox.write(at, Uint32Array.from(NUMBERS));
plugin.exports.sort(NUMBERS.length);
console.log(...new Uint32Array(plugin.sandbox.read(at, 4 * NUMBERS.length).buffer));
const { digit } = plugin.exports;
console.log(...[...NUMBERS].sort((a, b) => digit(a) - digit(b)));
plugin.close();
