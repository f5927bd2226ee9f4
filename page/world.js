// A world of sandboxes that runs, with the console of `sfi run` (docs/GATES.md). SERVICES, which made.js has, names its services.
"use strict";

const KINDS = ["none", "ready", "call", "exited", "trapped", "stopped"];
const CAUSES = ["", "Fetch", "Illegal", "Break", "Load", "Store"];
// What sfi_run_load answers where there is no world.
const NOT_LOADED = ["", "A refused image isn't loaded: nothing of it runs.", "These bytes are no image.", "There is no memory for it."];

class World {
    constructor(module, image, input) {
        this.module = module;
        this.calls = module.calls;
        this.world = module.put(new Uint8Array(16));
        this.told = module.room(64);
        this.cpu = module.room(132);
        const at = module.put(image);
        this.status = this.calls.sfi_run_load(at, BigInt(image.length), this.world, this.told);
        this.count = this.status ? 0 : Number(this.calls.sfi_run_count(this.world));
        this.console = module.put(new Uint8Array(16));
        const given = module.put(input);
        this.hasMemory(this.calls.sfi_run_console_new(this.count, given, BigInt(input.length), this.console));
        module.free(at, given);
        this.log = [];
    }
    hasMemory(done) { if (!done) throw new Error("the module has no memory left"); }
    close() {
        this.calls.sfi_run_console_free(this.console);
        this.calls.sfi_run_free(this.world);
        this.module.free(this.world, this.told, this.cpu, this.console);
    }
    // Of struct sfi_run_event in sfi_run.h; the gate and the pc stand before a0.
    toldEvent() {
        const v = this.module.view, at = Number(this.told);
        return { kind: KINDS[v.getUint32(at, true)], number: v.getUint32(at + 4, true), a0: v.getUint32(at + 16, true), a1: v.getUint32(at + 20, true) };
    }
    event(i) { this.calls.sfi_run_event(this.world, i, this.told); return this.toldEvent(); }
    turn(i, steps) { this.calls.sfi_run_turn(this.world, i, steps, this.told); return this.toldEvent(); }
    steps(i) { return Number(BigInt.asUintN(64, this.calls.sfi_run_steps(this.world, i))); }
    // The pc, and behind it the 32 registers.
    registers(i) {
        this.calls.sfi_run_registers(this.world, i, this.cpu);
        return new Uint32Array(this.module.copy(this.cpu, 132).buffer);
    }
    pc(i) { this.calls.sfi_run_registers(this.world, i, this.cpu); return this.module.view.getUint32(Number(this.cpu), true); }
    region(i) {
        this.calls.sfi_run_data(this.world, i, this.told);
        const v = this.module.view, at = Number(this.told);
        return { base: v.getUint32(at, true), size: v.getUint32(at + 4, true) };
    }
    // The bytes at an address of sandbox i's data region, or null where they leave it.
    read(i, at, length) {
        const room = this.module.room(length);
        const bytes = this.calls.sfi_run_read(this.world, i, at, BigInt(length), room, BigInt(length)) ? this.module.copy(room, length) : null;
        this.module.free(room);
        return bytes;
    }
    // What sandbox i has put.
    output(i) {
        const length = this.calls.sfi_run_console_written(this.console, i), room = this.module.room(Number(length));
        this.calls.sfi_run_console_read(this.console, i, 0n, room, length);
        const bytes = this.module.copy(room, Number(length));
        this.module.free(room);
        return bytes;
    }
    // Has the console reply to the call at which sandbox i stands. Whether its turn goes on.
    serve(i, call) {
        const name = SERVICES[call.number];
        this.take(i, 1);
        this.note(i, call, name === "exit" ? null : this.registers(i)[1 + 10]);
        return name !== "exit" && name !== "yield";
    }
    note(i, call, reply) { if (this.log.length < 400) this.log.push({ i, call, reply }); }
    // A turn of `steps` steps of sandbox `i`, as `sfi run` gives it.
    take(i, steps) { this.hasMemory(this.calls.sfi_run_console_turn(this.console, this.world, i, steps)); }
    // The same one step after another: `seen` gets the pc of each. How many there were.
    takeSteps(i, steps, seen) {
        let event = this.event(i), done = 0;
        while (done < steps) {
            const pc = this.pc(i);
            let goesOn = true;
            if (event.kind === "call") {
                goesOn = this.serve(i, event);
                event = this.event(i);
            } else if (event.kind === "ready") {
                event = this.turn(i, 1);
                if (event.kind === "trapped") break;
            } else break;
            seen(pc);
            done++;
            if (!goesOn) break;
        }
        return done;
    }
    isOver() { return Array.from({ length: this.count }, (_, i) => this.event(i).kind).every((kind) => kind === "exited" || kind === "trapped"); }
    // The line of `sfi run`.
    line(i) {
        const event = this.event(i);
        const state = event.kind === "exited" ? `exit=${event.number}`
            : event.kind === "trapped" ? `trap=${CAUSES[event.number]} at=${hex8(event.a0)}` : "ready";
        return `sandbox=${i} ${state} steps=${this.steps(i)} out=${hexOf(this.output(i))}`;
    }
    lines() { return Array.from({ length: this.count }, (_, i) => this.line(i) + "\n").join(""); }
}
