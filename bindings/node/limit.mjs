// What ends a run beside its steps: a time, and another thread, or whoever aborts a signal.
import { Ended } from "./told.mjs";

/** How many steps a run takes before it looks at its limit again: about ten milliseconds. */
export const TURN = 100_000;

function isSet(interrupt) {
  return interrupt instanceof AbortSignal ? interrupt.aborted : Atomics.load(interrupt, 0) !== 0;
}

/** That of one run, whose time begins now. A call within it ends, too, where this one is over. */
export class Limit {
  #deadline;
  #interrupt;
  around; // that of the call whose handler runs this
  cause; // why the run ended, if this ended it

  constructor({ timeout = Infinity, interrupt } = {}) {
    if (typeof timeout !== "number" || !(timeout >= 0)) throw new RangeError(`timeout is ${String(timeout)}, and has to be at least 0`);
    if (interrupt !== undefined && !(interrupt instanceof AbortSignal) && !(interrupt instanceof Int32Array)) {
      throw new TypeError("`interrupt` is an AbortSignal, or an Int32Array");
    }
    this.#deadline = performance.now() + timeout;
    this.#interrupt = interrupt;
  }

  /** Whether no more turn of the run may begin. */
  get isOver() {
    if (this.#interrupt && isSet(this.#interrupt)) this.cause = Ended.INTERRUPTED;
    else if (performance.now() >= this.#deadline) this.cause = Ended.TIMED_OUT;
    else if (this.around?.isOver) this.cause = this.around.cause;
    return this.cause !== undefined;
  }
}
