// The map: where code, data, guard zones and gates lie in the addresses, to scale; below it each sandbox enlarged.
"use strict";

const MAP_WIDE = 620, MAP_GAP = 46, GUARD = 4096, MOST_ENLARGED = 4;
const HATCH = '<defs><pattern id="hatch" width="6" height="6" patternUnits="userSpaceOnUse" patternTransform="rotate(45)"><rect width="6" height="6" fill="var(--wash)"/><rect width="2.5" height="6" fill="var(--guard)"/></pattern></defs>';
const bar = (x, y, wide, high, fill, title) => `<rect x="${x.toFixed(2)}" y="${y}" width="${Math.max(1.5, wide).toFixed(2)}" height="${high}" fill="${fill}"><title>${title}</title></rect>`;
const words = (x, y, text, anchor = "start", kind = "") => `<text class="${kind}" x="${x.toFixed(1)}" y="${y}" text-anchor="${anchor}">${text}</text>`;

// All sandboxes on one line, from the lowest address to the highest.
function overview(low, high) {
    const scale = MAP_WIDE / (high - low), x = (at) => (at - low) * scale;
    return bar(0, 2, MAP_WIDE, 14, "var(--wash)", "nothing is here") + now.sandboxes.map((it, i) =>
        bar(x(it.data - GUARD), 2, (it.dataSize + 2 * GUARD) * scale, 14, "url(#hatch)", `guard zones of sandbox ${i}`)
        + bar(x(it.code), 2, it.codeSize * scale, 14, "var(--code)", `code of sandbox ${i}`)
        + bar(x(it.data), 2, it.dataSize * scale, 14, "var(--data)", `data of sandbox ${i}`)).join("");
}

// Where the sandbox is: its pc, its stack pointer, and the data that changed.
function runMarks(sandbox, it, y, scale, dataAt) {
    if (!now.world || now.world.status) return "";
    const [pc, , , sp] = now.world.registers(sandbox), x = Math.min(Math.max((pc - it.code) * scale, 0), it.codeSize * scale), top = sp - it.data;
    const touched = now.touched && now.touched.sandbox === sandbox ? now.touched.list : [];
    return `<path d="M${x} ${y + 27} l-5 8 h10 z" fill="var(--accent)"><title>pc</title></path>`
        + touched.map((at) => bar(dataAt + at * scale, y - 2, Math.max(2, scale), 30, "var(--bad)", "changed")).join("")
        + (top > 0 && top <= it.dataSize ? `<path d="M${dataAt + top * scale} ${y + 27} l-4 8 h8 z" fill="var(--data)"><title>x2, the stack pointer</title></path>` : "");
}

function enlarged(sandbox, it, y) {
    const scale = (MAP_WIDE - MAP_GAP) / (it.codeSize + it.dataSize + 2 * GUARD), codeWide = it.codeSize * scale;
    const left = codeWide + MAP_GAP, guard = GUARD * scale, dataAt = left + guard, dataWide = it.dataSize * scale, name = now.sandboxes.length > 1 ? `sandbox ${sandbox}: ` : "";
    const zone = (x) => bar(x, y, guard, 26, "url(#hatch)", "guard zone: 4096 addresses, where each access traps") + (guard > 70 ? words(x + guard / 2, y + 17, "guard 4096", "middle") : "");
    const gates = it.gates.map((gate) => bar((gate.at - it.code) * scale, y, 16 * scale, 26, "var(--gate)", `gate at ${hex8(gate.at)}: ${SERVICES[gate.service]}`)).join("");
    return words(0, y - 4, `${name}code`, "start", "name") + words(Math.max(dataAt + dataWide / 2, 130), y - 4, "data", "middle", "name")
        + bar(0, y, codeWide, 26, "var(--code)", `code: ${it.codeSize} bytes from ${hex8(it.code)}`) + gates + zone(left) + zone(dataAt + dataWide)
        + bar(dataAt, y, dataWide, 26, "var(--data)", `data: ${it.dataSize} bytes from ${hex8(it.data)}`)
        + words(codeWide + MAP_GAP / 2, y + 17, "⋯", "middle") + runMarks(sandbox, it, y, scale, dataAt)
        + words(0, y + 46, hex8(it.code)) + words(Math.max(dataAt, 100), y + 46, hex8(it.data), dataAt < 100 ? "start" : "middle")
        + words(MAP_WIDE, y + 46, `1 px = ${(1 / scale).toFixed(1)} bytes`, "end");
}

function drawMap() {
    if (!now.sandboxes.length) return $("map").replaceChildren();
    const low = Math.min(...now.sandboxes.map((it) => Math.min(it.code, it.data - GUARD)));
    const high = Math.max(...now.sandboxes.map((it) => Math.max(it.code + it.codeSize, it.data + it.dataSize + GUARD)));
    $("span").textContent = `${hex8(low)} to ${hex8(high)}, ${((high - low) / 1048576).toFixed(1)} MiB of addresses`;
    const most = now.sandboxes.slice(0, MOST_ENLARGED), rows = most.map((it, sandbox) => enlarged(sandbox, it, 44 + 68 * sandbox)).join("");
    const key = ["code", "gate", "data"].map((it) => `<span><i style="background:var(--${it})"></i>${it}</span>`).join("");
    const left = now.sandboxes.length - most.length;
    $("map").innerHTML = `<svg viewBox="0 0 ${MAP_WIDE} ${28 + 68 * most.length}" width="100%" role="img" aria-label="Where code, data and guard zones lie">${HATCH}${overview(low, high)}${rows}</svg>`
        + `<div class="legend">${key}<span><i class="hatched"></i>guard zone: an access traps</span>${left ? `<span>${left} more above</span>` : ""}</div>`;
    return undefined;
}
