// Calls a function of a plug-in by its name: node add.mjs IMAGE
import { readFileSync } from "node:fs";
import { Plugin } from "../index.mjs";

const plugin = await Plugin.load(readFileSync(process.argv[2]));
console.log(plugin.exports.add(2, 3));
plugin.close();
