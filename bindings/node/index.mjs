// Runs sandboxes of untrusted RISC-V code, by Suygapid's proved library: index.d.mts says what each call does.
export { Console } from "./console.mjs";
export { Library, NoMemory, VERSION } from "./library.mjs";
export { Module } from "./module.mjs";
export { Plugin, byCall } from "./plugin.mjs";
export * as sizes from "./sizes.mjs";
export * as snapshots from "./snapshots.mjs";
export { Call, Cause, Ended, Exited, Meets, NoImage, NoName, NotEntered, NotReturned, NotRunning, NotTaken, NotWaiting, OutsideData,
  Ready, Refused, Stopped, TooLarge, TooLong, Trapped, WrongArguments, WrongSignature, WrongSnapshot } from "./told.mjs";
export { load } from "./world.mjs";
