// Values go into the functions of a plug-in and out of them: node values.mjs IMAGE, of examples/run/values_plugin.c. Its image says what
// they take and give, and the host says what it means to call.
import { readFileSync } from "node:fs";
import { Plugin, WrongArguments } from "../index.mjs";

const signatures = { rest: "(s)s", reverse: "(w)v", product: "(il)l", half: "(d)f", opposite: "(c)y", picked: "(b)i", note: "(s)v",
  pick: "(b)i" };
const handlers = {
  note: (text) => console.log("noted", text),
  pick: (data) => data.indexOf(Math.max(...data)),
};

const plugin = await Plugin.load(readFileSync(process.argv[2]), { signatures, handlers });
const { rest, reverse, picked, product, half, opposite } = plugin.exports;
console.log(rest("häuser"), rest("") ?? "None");
const buffer = Buffer.from("stressed");
reverse(buffer);
console.log(buffer.toString(), picked(Uint8Array.of(3, 200, 7)), String(product(-3, 10_000_000_000)), half(0.5), opposite(200));
for (const call of [() => product(2, "3"), () => opposite(256)]) {
  try {
    call();
  } catch (error) {
    if (!(error instanceof WrongArguments)) throw error;
    console.log("refused", error.functionName, error.signature);
  }
}
plugin.close();
