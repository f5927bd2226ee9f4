// What node takes for what world_counts.py measures of sfi_run: prints the nanoseconds of one, or the bytes of an instance.
//
//     node --expose-gc host_calls.mjs MODULE call|instance|load|bytes TIMES
import { readFileSync } from "node:fs";

const [, , path, what, times] = process.argv;
const code = readFileSync(path);
const module = new WebAssembly.Module(code);
let sum = 0;
const imports = { host: { post: (a, b) => { sum = (sum + a + b) | 0; return a; } } };
const { exports } = new WebAssembly.Instance(module, imports);
const count = Number(times);
const kept = [];

const measured = {
    call: () => exports.run(count),
    instance: () => { for (let k = 0; k < count; k++) kept[0] = new WebAssembly.Instance(module, imports); },
    load: () => { for (let k = 0; k < count; k++) kept[0] = new WebAssembly.Module(code); },
    bytes: () => { for (let k = 0; k < count; k++) kept.push(new WebAssembly.Instance(module, imports)); },
};

if (what === "bytes") {
    gc();
    const before = process.memoryUsage.rss();
    measured.bytes();
    gc();
    console.log((process.memoryUsage.rss() - before) / count);
} else {
    measured[what]();
    const start = process.hrtime.bigint();
    measured[what]();
    console.log(Number(process.hrtime.bigint() - start) / count);
}
