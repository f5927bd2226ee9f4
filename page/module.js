// sfi.wasm: the commands of the program `sfi` (sfi_tool.h), and worlds of sandboxes (sfi_run.h, world.js).
"use strict";

const HEX = Array.from({ length: 256 }, (_, byte) => byte.toString(16).padStart(2, "0"));
const hexOf = (bytes) => { let text = ""; for (const byte of bytes) text += HEX[byte]; return text; };
const bytesOf = (hex) => Uint8Array.from(hex.replace(/\s/g, "").match(/../g) || [], (pair) => parseInt(pair, 16));
const hex8 = (number) => (number >>> 0).toString(16).padStart(8, "0");
const utf8 = new TextEncoder(), text8 = new TextDecoder();

// A script of the page's folder, once it has run.
const script = (path) => new Promise((resolve, reject) => {
    const made = document.createElement("script");
    made.src = path;
    made.onload = resolve;
    made.onerror = () => reject(new Error(`${path} isn't there: tools/build_page.py makes it`));
    document.head.append(made);
});

// A page that was opened as a file may not fetch one: then the module is a script that holds its bytes as text.
async function moduleBytes() {
    if (location.protocol === "file:") {
        await script("sfi.wasm.js");
        return Uint8Array.from(atob(SFI_WASM), (letter) => letter.charCodeAt(0));
    }
    const answer = await fetch("sfi.wasm");
    if (!answer.ok) throw new Error("sfi.wasm isn't there: tools/build_page.py makes it");
    return new Uint8Array(await answer.arrayBuffer());
}

// The module and its memory. Its addresses and lengths are BigInts.
class Module {
    static async load() {
        const module = new Module(), bytes = await moduleBytes();
        module.size = bytes.length;
        module.calls = (await WebAssembly.instantiate(bytes)).instance.exports;
        return module;
    }
    // Anew where the memory has grown.
    get bytes() {
        const buffer = this.calls.memory.buffer;
        if (!this.seen || this.seen.buffer !== buffer) this.seen = new Uint8Array(buffer);
        return this.seen;
    }
    get view() {
        const buffer = this.calls.memory.buffer;
        if (!this.viewed || this.viewed.buffer !== buffer) this.viewed = new DataView(buffer);
        return this.viewed;
    }
    room(length) {
        const at = this.calls.malloc(BigInt(length || 1));
        if (!at) throw new Error("the module has no memory left");
        return at;
    }
    put(bytes) {
        const at = this.room(bytes.length);
        this.bytes.set(bytes, Number(at));
        return at;
    }
    copy(at, length) { return this.bytes.slice(Number(at), Number(at) + length); }
    free(...all) { for (const at of all) this.calls.free(at); }
}

// The program: `tool.answer(["check", "--report"], text)` gives its status and what it prints.
class Tool {
    constructor(module) { this.module = module; this.usual = 1 << 16; }
    answer(words, input) {
        const m = this.module, line = utf8.encode(["sfi", ...words].map((word) => word + "\0").join(""));
        const given = typeof input === "string" ? utf8.encode(input) : input;
        const [w, i, length] = [m.put(line), m.put(given), m.room(8)];
        let told = null;
        while (!told) {
            const output = m.room(this.usual);
            const status = m.calls.sfi_tool_answer(w, BigInt(line.length), i, BigInt(given.length), output, BigInt(this.usual), length);
            const whole = Number(m.view.getBigUint64(Number(length), true));
            if (whole <= this.usual) told = { status, text: text8.decode(m.copy(output, whole)) };
            m.free(output);
            if (!told) this.usual = 2 ** Math.ceil(Math.log2(whole));
        }
        m.free(w, i, length);
        return told;
    }
}
