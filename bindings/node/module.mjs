// An image that is checked and decoded once, for many worlds: index.d.mts says what each call does.
import { bytesOf } from "./given.mjs";
import { NoMemory, usualLibrary } from "./library.mjs";
import { Plugin, claimsOf } from "./plugin.mjs";
import { Held, STRUCT_BYTES, World, dropped, freeing, heldBy, make } from "./world.mjs";

export class Module {
  #library;
  #at;
  #image; // which its worlds ask for names: it stays as long as one of them refers to this
  #isOpen = true;
  #claims = new Map(); // of its sandboxes, by their numbers, as they are asked for

  static async load(image, library) {
    return new Module(image, library ?? await usualLibrary());
  }

  constructor(image, library) {
    const bytes = bytesOf(image);
    this.#library = library;
    this.#at = library.put(bytes, STRUCT_BYTES);
    this.#image = [this.#at + BigInt(STRUCT_BYTES), BigInt(bytes.length)];
    make(library, "module_new", "module_free", this.#at, this.#image);
    dropped.register(this, freeing(library, "module_free", this.#at));
    heldBy.set(this, { library, at: this.#at, image: this.#image, isOpen: true });
  }

  world() {
    if (!this.#isOpen) throw new Error("the module is closed");
    const at = this.#library.put(new Uint8Array(), STRUCT_BYTES);
    if (!this.#library.calls.instance(this.#at, at)) {
      this.#library.give(at);
      throw new NoMemory("there was no memory for a world of the module");
    }
    return new World(new Held(this.#library, at, this.#image, this));
  }

  instance(options) {
    return Plugin.of(this.world(), options, (sandbox) => this.#claimsOf(sandbox));
  }

  /** What the table of a sandbox claims, which is read once. */
  #claimsOf(sandbox) {
    const { number } = sandbox;
    if (!this.#claims.has(number)) this.#claims.set(number, claimsOf(sandbox));
    return this.#claims.get(number);
  }

  close() {
    this.#isOpen = false;
    heldBy.get(this).isOpen = false;
    this.#library.calls.module_free(this.#at);
  }

  [Symbol.dispose]() {
    this.close();
  }
}
