// The console of `sfi run`, ready made: the library's own host for sandboxes, whose services docs/GATES.md lists.
import { bytesOf, word } from "./given.mjs";
import { NoMemory } from "./library.mjs";
import { Exited, NotWaiting, Trapped, hexadecimal } from "./told.mjs";
import { EXIT, STRUCT_BYTES, dropped, freeing, heldBy, seatOf } from "./world.mjs";

const YIELD = 3; // the service

export class Console {
  #held;
  #at;

  constructor(world, given = new Uint8Array()) {
    const held = heldBy.get(world);
    const { library, seats } = held;
    const bytes = bytesOf(given);
    this.world = world;
    this.#held = held;
    this.#at = library.put(new Uint8Array(), STRUCT_BYTES);
    const free = freeing(library, "console_free", this.#at);
    if (!library.calls.console_new(seats.length, library.pass(bytes), BigInt(bytes.length), this.#at)) {
      free();
      throw new NoMemory("there was no memory for the console");
    }
    dropped.register(this, free);
  }

  get output() {
    return this.world.sandboxes.map(({ number }) => this.#output(number));
  }

  #output(number) {
    const { library } = this.#held;
    const count = library.calls.console_written(this.#at, number);
    const room = library.passage(Number(count));
    library.calls.console_read(this.#at, number, 0n, room, count);
    return library.copy(room, Number(count));
  }

  serve(call) {
    if (!call.isWaiting) throw new NotWaiting(`sandbox ${call.sandbox.number} no longer stands at this call`);
    this.turn(call.sandbox, 1);
    return call.service !== EXIT && call.service !== YIELD;
  }

  turn(sandbox, steps) {
    const { library, at } = this.#held;
    const seat = seatOf.get(sandbox);
    if (!this.#held.has(seat)) throw new RangeError("the world is closed, or the sandbox removed");
    const isDone = library.calls.console_turn(this.#at, at, seat.number, word(steps));
    seat.goneOn = ++this.#held.moves;
    if (!isDone) throw new NoMemory("there was no memory for what a sandbox put");
  }

  rounds(count, steps) {
    for (let round = 0; round < count; round++) {
      for (const sandbox of this.world.sandboxes) this.turn(sandbox, steps);
    }
  }

  line(sandbox) {
    const { event, number, steps } = sandbox;
    let state = "ready";
    if (event instanceof Exited) state = `exit=${event.number}`;
    if (event instanceof Trapped) state = `trap=${event.cause} at=${hexadecimal(event.address)}`;
    return `sandbox=${number} ${state} steps=${steps} out=${Buffer.from(this.#output(number)).toString("hex")}`;
  }
}
