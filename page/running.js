// The run: steps, what changed with the last one, the registers, the data and the output.
"use strict";

const REGISTERS = "zero ra sp gp tp t0 t1 t2 s0 s1 a0 a1 a2 a3 a4 a5 a6 a7 s2 s3 s4 s5 s6 s7 s8 s9 s10 s11 t3 t4 t5 t6".split(" ");
const MOST_STEPS = 20_000_000, MOST_TO_CALL = 1_000_000, QUANTUM = 1000, MOST_DATA_ROWS = 60;
const HALF = 1 << 19; // bytes that are looked at from each end of larger data
const CONTROLS = ["step", "call", "go", "reset"];

// A world of the image as it is now, from its start.
function restart() {
    if (now.world) now.world.close();
    now.going++;
    now.counts = new Map();
    now.before = now.touched = null;
    now.world = new World(sfi, now.image, utf8.encode($("input").value));
    const count = now.world.count;
    now.which = Math.min(now.which, Math.max(0, count - 1));
    $("which").replaceChildren(...Array.from({ length: count }, (_, i) => new Option(`sandbox ${i}`, i)));
    $("which").hidden = count < 2;
    $("which").value = now.which;
    allowRuns();
    tell();
    list();
}

function allowRuns() {
    for (const id of CONTROLS) $(id).disabled = !now.world || now.world.status !== 0 || !$("fault").hidden;
}

function stateText(event, pc) {
    if (event.kind === "call") return `calls ${SERVICES[event.number]}(${hex8(event.a0)}, ${event.a1}) and waits for the reply`;
    if (event.kind === "exited") return `exited with ${event.number}`;
    return event.kind === "trapped" ? `trapped: ${CAUSES[event.number]} at ${hex8(event.a0)}` : `${event.kind} at ${hex8(pc)}`;
}

// The data, or both ends of them.
function lookedAt(world, i, region) {
    if (region.size <= 2 * HALF) return world.read(i, region.base, region.size);
    const data = new Uint8Array(2 * HALF);
    data.set(world.read(i, region.base, HALF));
    data.set(world.read(i, region.base + region.size - HALF, HALF), HALF);
    return data;
}

// How many bytes of the data aren't looked at before a byte of these.
const skipped = (region, k) => k < HALF ? 0 : Math.max(0, region.size - 2 * HALF);

// Shows the sandbox that is looked at, and marks what changed since it was shown last.
function tell() {
    const world = now.world, i = now.which;
    if (world.status) {
        drawMap();
        $("state").className = "trap";
        $("state").textContent = NOT_LOADED[world.status];
        for (const id of ["registers", "data", "console", "calls"]) $(id).replaceChildren();
        $("steps").textContent = $("where").textContent = "";
        return;
    }
    const event = world.event(i), registers = world.registers(i), region = world.region(i), data = lookedAt(world, i, region);
    const old = now.before && now.before.which === i ? now.before : null, changed = [];
    if (old) for (let k = 0; k < data.length && changed.length < 2000; k++) if (data[k] !== old.data[k]) changed.push(k);
    now.touched = { sandbox: i, list: changed.map((k) => k + skipped(region, k)) };
    $("steps").textContent = `${world.steps(i).toLocaleString("en")} steps`;
    $("state").className = event.kind === "trapped" ? "trap" : "";
    $("state").textContent = stateText(event, registers[0]);
    showRegisters(registers, old);
    showData(region, data, new Set(changed), registers[3] - region.base);
    showOutput(world, i);
    drawMap();
    now.before = { which: i, registers, data };
}

function showRegisters(registers, old) {
    $("registers").replaceChildren(...Array.from(registers.subarray(1), (value, x) => {
        const kind = old && old.registers[x + 1] !== value ? "changed" : x >= 24 && x <= 27 ? "own" : value ? "" : "zero";
        const it = make("div", kind);
        it.title = `x${x}, ${REGISTERS[x]}: ${value | 0}`;
        it.append(make("u", "", `x${x} ${REGISTERS[x]}`), hex8(value));
        return it;
    }));
}

function showOutput(world, i) {
    const output = world.output(i);
    $("console").replaceChildren(output.length ? text8.decode(output.slice(-4000)) : make("span", "", "nothing yet"));
    $("calls").replaceChildren(...world.log.slice(-40).map((it) => {
        const line = make("div"), said = it.reply === null ? `(${it.call.a0})` : `(${hex8(it.call.a0)}, ${it.call.a1}) = ${it.reply | 0}`;
        line.append(world.count > 1 ? `${it.i}: ` : "", make("b", "", SERVICES[it.call.number]), said);
        return line;
    }));
    $("calls").scrollTop = 1e9;
}

function dataLine(region, data, row, changed) {
    const bytes = Array.from(data.subarray(row * 16, row * 16 + 16));
    const digits = bytes.map((byte, k) => `<b class="${changed.has(row * 16 + k) ? "changed" : byte ? "" : "zero"}">${HEX[byte]}</b>${k % 4 === 3 ? " " : ""}`);
    return `<div><u>${hex8(region.base + row * 16 + skipped(region, row * 16))}</u> ${digits.join("")}${escaped(bytes.map(shown).join(""))}</div>`;
}

// The first rows, those that hold anything, that changed, and that of the stack pointer.
function showData(region, data, changed, stack) {
    const made = [], gap = '<div class="zero">⋯</div>';
    let count = 0;
    for (let row = 0; row * 16 < data.length; row++) {
        const bytes = data.subarray(row * 16, row * 16 + 16), isFresh = bytes.some((_, k) => changed.has(row * 16 + k));
        const wanted = isFresh || count < MOST_DATA_ROWS && (row < 4 || row === stack - skipped(region, row * 16) >> 4 || bytes.some((it) => it));
        if (wanted) made.push(dataLine(region, data, row, changed));
        else if (made[made.length - 1] !== gap) made.push(gap);
        count += wanted;
    }
    $("data").innerHTML = made.join("");
    $("where").textContent = `${region.size} bytes from ${hex8(region.base)}`;
    const first = $("data").querySelector(".changed");
    if (first) $("data").scrollTop = first.parentNode.offsetTop - $("data").offsetTop - 60;
}

const count = (sandbox) => (pc) => {
    const place = placeOf(sandbox, pc);
    now.counts.set(place, (now.counts.get(place) || 0) + 1);
};

function redraw() {
    tell();
    list();
}

function step() {
    now.world.takeSteps(now.which, 1, count(now.which));
    redraw();
}

// Up to the next gate call of this sandbox, which then waits for its reply.
function toCall() {
    const world = now.world, i = now.which, counted = count(i);
    for (let left = MOST_TO_CALL; left > 0 && world.takeSteps(i, 1, counted); left--) if (world.event(i).kind === "call") break;
    redraw();
}

// All sandboxes take turns, some for 120 ms between two pictures. The counts of each pc are kept as numbers until then.
async function go() {
    const mine = ++now.going, world = now.world, counts = Array.from({ length: world.count }, () => new Map());
    $("go").disabled = true;
    for (let done = 0; done < MOST_STEPS && mine === now.going && !world.isOver();) {
        const begun = performance.now();
        while (performance.now() - begun < 120 && !world.isOver() && done < MOST_STEPS) {
            counts.forEach((own, i) => world.takeSteps(i, QUANTUM, (pc) => own.set(pc, (own.get(pc) || 0) + 1)));
            done += QUANTUM;
        }
        tell();
        await new Promise((resolve) => setTimeout(resolve, 0));
    }
    if (mine !== now.going) return;
    counts.forEach((own, i) => own.forEach((times, pc) => now.counts.set(placeOf(i, pc), (now.counts.get(placeOf(i, pc)) || 0) + times)));
    $("go").disabled = false;
    redraw();
}

function listenToRun() {
    const does = { step, call: toCall, go, reset: restart };
    for (const id of CONTROLS) $(id).onclick = does[id];
    $("input").oninput = restart;
    $("which").onchange = () => { now.which = +$("which").value; now.before = null; redraw(); };
    addEventListener("keydown", (event) => {
        const id = { F10: "step", F8: "call", F9: "go" }[event.key];
        if (!id || $(id).disabled) return;
        does[id]();
        event.preventDefault();
    });
}
