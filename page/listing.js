// The image's rows: its header, its instructions and its first data bytes, any byte of which can be typed over.
"use strict";

const MOST_ROWS = 400, FEWEST_FILL = 6, DATA_ROW = 8, LINE = 4;  // LINE bytes stand side by side
const escaped = (text) => text.replace(/[&<>"]/g, (it) => `&#${it.charCodeAt(0)};`);
const placeOf = (sandbox, at) => `${sandbox} ${hex8(at)}`;

// What `sfi dis` prints, as sandboxes with their rows, and where the bytes of each stand in the image.
function parseListing(text) {
    const sandboxes = [];
    let offset = 8, own = null;
    for (const line of text.split("\n")) {
        const words = line.split(" ");
        if (words[0] === "sandbox") {
            const [code, data, start] = [words[3], words[6], words[9]].map((it) => parseInt(it, 16));
            if (own) offset = own.offset + own.codeSize + own.init;
            own = { code, codeSize: +words[4], data, dataSize: +words[7], start, gateCount: +words[11], init: +words[13], gates: [], rows: [] };
            own.head = offset;
            own.offset = offset + 28 + 8 * own.gateCount;
            sandboxes.push(own);
        } else if (words[0] === "gate") own.gates.push({ at: parseInt(words[1], 16), service: +words[2] });
        else if (own) {
            // An instruction as a number, or bytes in memory's order that are none.
            const found = /^([0-9a-f]{8}) (?:\.bytes ([0-9a-f]+)$|([0-9a-f]{4}|[0-9a-f]{8}) (.+)$)/.exec(line);
            if (!found) continue;
            const at = parseInt(found[1], 16);
            own.rows.push({ at, size: (found[2] || found[3]).length / 2, asm: found[4] || "", offset: own.offset + at - own.code });
        }
    }
    return sandboxes;
}

// The bytes of a row as digits, with the cursor and what was typed.
function digitsOf(offset, size) {
    let made = "";
    for (let at = offset; at < offset + size; at++) {
        const [high, low] = HEX[now.image[at]], isTyped = now.typed.has(at), caret = now.caret >> 1 === at && now.caret !== null ? now.caret & 1 : -1;
        const half = (digit, k) => caret === k ? `<b class="caret">${digit}</b>` : digit;
        made += (at === offset ? "" : (at - offset) % LINE ? " " : "\n") + (isTyped ? "<i>" : "") + half(high, 0) + half(low, 1) + (isTyped ? "</i>" : "");
    }
    return made;
}

const bytesCell = (offset, size) => `<span class="bytes" data-offset="${offset}" data-size="${size}">${digitsOf(offset, size)}</span>`;
const fieldRow = (offset, size, at, said) => `<div class="row field"><span></span><span class="at">${at}</span>${bytesCell(offset, size)}<span class="asm">${escaped(said)}</span></div>`;

function headerRows(own) {
    const number = (k) => own.head + 4 * k;
    const said = [["code base", hex8(own.code)], ["code size", own.codeSize], ["data base", hex8(own.data)], ["data size", own.dataSize],
        ["start", hex8(own.start)], ["gates", own.gateCount], ["first data bytes", own.init]];
    const made = said.map(([name, value], k) => fieldRow(number(k), 4, "header", `${name} ${value}`));
    own.gates.forEach((gate, k) => made.push(fieldRow(own.head + 28 + 8 * k, 8, "gate", `${hex8(gate.at)}, service ${gate.service} (${SERVICES[gate.service]})`)));
    return foldable(`header ${own.head}`, `header, ${28 + 8 * own.gateCount} bytes`, made.join(""));
}

// Rows below a line that opens and closes them.
const foldable = (key, said, rows) => `<details data-key="${key}"${now.opened.has(key) ? " open" : ""}><summary>${said}</summary>${rows}</details>`;

function dataRows(own) {
    const from = own.offset + own.codeSize, made = [];
    for (let k = 0; k < own.init && made.length < MOST_ROWS / 4; k += DATA_ROW) {
        const size = Math.min(DATA_ROW, own.init - k), text = Array.from(now.image.subarray(from + k, from + k + size), shown).join("");
        made.push(fieldRow(from + k, size, hex8(own.data + k), text));
    }
    if (DATA_ROW * made.length < own.init) made.push(`<div class="note">${own.init - DATA_ROW * made.length} more data bytes</div>`);
    return made.length ? foldable(`data ${own.head}`, `first data, ${own.init} bytes`, made.join("")) : "";
}

const shown = (byte) => byte > 31 && byte < 127 ? String.fromCharCode(byte) : "·";
const nameAt = (sandbox, at) => now.names.get(placeOf(sandbox, at));
const findingLine = (it, where = "") => `<div class="finding"><b>${it.rule}</b>${escaped((now.isWords ? WORD_RULES : RULES)[it.rule] || "")}${where}</div>`;

function kindOf(own, row) {
    const kinds = [];
    if (row.at % 16 === 0) kinds.push("first");
    if (own.gates.some((it) => row.at >= it.at && row.at < it.at + 16)) kinds.push("stub");
    else if (/^(and|or) x(2|29|30|31), x\d+, x2[4567]$/.test(row.asm)) kinds.push("mask");
    if (/^(ebreak|addi x0, x0, 0)$/.test(row.asm)) kinds.push("fill");
    if (!row.asm) kinds.push("none");
    return kinds.join(" ");
}

function barOf(steps, most) {
    if (!steps) return "<span></span>";
    const said = steps < 1e5 ? steps : steps < 1e8 ? `${Math.round(steps / 1000)}k` : `${Math.round(steps / 1e6)}M`;
    return `<span class="bar" title="${steps} times"><i style="width:${Math.max(3, 92 * steps / most).toFixed(0)}%"></i><span>${said}</span></span>`;
}

function rowOf(sandbox, own, row, most, isBad) {
    const jump = /^(?:jal|b\w+)\b.*?(-?\d+)$/.exec(row.asm), to = jump && nameAt(sandbox, (row.at + +jump[1]) >>> 0);
    const place = placeOf(sandbox, row.at);
    return `<div class="row code ${kindOf(own, row)}${isBad ? " bad" : ""}${place === now.pcPlace ? " pc" : ""}" data-place="${place}">`
        + barOf(now.counts.get(place), most) + `<span class="at">${hex8(row.at)}</span>${bytesCell(row.offset, row.size)}`
        + `<span class="asm">${row.asm || "no instruction"}${to ? `<em>   → ${escaped(to.name)}</em>` : ""}</span></div>`;
}

function labelOf(sandbox, own, row) {
    const name = nameAt(sandbox, row.at), gate = own.gates.find((it) => it.at === row.at);
    if (!name && !gate) return "";
    const small = gate ? `<small>  gate, service ${gate.service} (${SERVICES[gate.service]})</small>` : "";
    return `<div class="label${gate ? " gate" : ""}">${name ? escaped(name.name) + ":" : ""}${small}</div>`;
}

// How many rows from the k-th on are the fill behind the code, which is shown as one.
function fillLength(sandbox, own, k) {
    let end = k;
    for (; end < own.rows.length; end++) {
        const { asm, size, at, offset } = own.rows[end];
        if (asm !== "ebreak" || size !== 2 || now.typed.has(offset) || now.typed.has(offset + 1) || now.findings.has(placeOf(sandbox, at))) break;
    }
    return end - k;
}

// A sandbox's instructions, as many as there is room for, and each with a finding.
function codeRows(sandbox, own, room) {
    const made = [], most = Math.max(1, ...own.rows.map((row) => now.counts.get(placeOf(sandbox, row.at)) || 0));
    for (let k = 0; k < own.rows.length; k++) {
        const row = own.rows[k], found = now.findings.get(placeOf(sandbox, row.at)) || [];
        if (room.rows <= 0 && !found.length) { room.left++; continue; }
        const fill = fillLength(sandbox, own, k);
        if (fill > FEWEST_FILL) {
            made.push(`<div class="note" data-rows="${fill}">${fill} times ebreak, up to ${hex8(own.rows[k + fill - 1].at + 2)}</div>`);
            k += fill - 1;
            continue;
        }
        room.rows--;
        made.push(labelOf(sandbox, own, row), rowOf(sandbox, own, row, most, found.length > 0), ...found.map((it) => findingLine(it)));
    }
    return made.join("");
}

function list() {
    const box = $("listing"), top = box.scrollTop, made = [], room = { rows: now.limit, left: 0 };
    now.pcPlace = now.world && !now.world.status ? placeOf(now.which, now.world.pc(now.which)) : "";
    const places = new Set(now.sandboxes.flatMap((own, sandbox) => own.rows.map((row) => placeOf(sandbox, row.at))));
    // None is lost, even if it stands at no row.
    for (const [place, all] of now.findings)
        if (!places.has(place)) made.push(...all.map((it) => findingLine(it, ` (sandbox ${place.replace(" ", ", at ")})`)));
    now.sandboxes.forEach((own, sandbox) => {
        made.push(`<div class="sandbox"><b>Sandbox ${sandbox}</b> · ${own.codeSize} bytes of code at ${hex8(own.code)}, ${own.dataSize} of data at ${hex8(own.data)}</div>`);
        if (!sandbox) made.push(foldable("front", "magic and count, 8 bytes", fieldRow(0, 4, "header", `magic ${Array.from(now.image.subarray(0, 4), shown).join("")}`) + fieldRow(4, 4, "header", `sandboxes ${now.sandboxes.length}`)));
        made.push(headerRows(own), codeRows(sandbox, own, room), dataRows(own));
    });
    if (room.left) made.push(`<div class="note" data-rows="${room.left}"><button id="more">Show more of ${room.left} rows</button></div>`);
    box.innerHTML = made.join("");
    box.scrollTop = top;
    if ($("more")) $("more").onclick = () => { now.limit += 4 * MOST_ROWS; list(); };
    if (now.caret === null) showPc();
    drawProfile();
}

// Scrolls to the instruction that comes next.
function showPc() {
    const box = $("listing"), row = box.querySelector(".row.pc");
    if (!row || !now.world.steps(now.which)) return;
    const at = row.offsetTop;
    if (at < box.scrollTop + 60 || at > box.scrollTop + box.clientHeight - 40) box.scrollTop = Math.max(0, at - box.clientHeight / 2);
}

// ---- the cursor, at a digit of a byte

const cells = () => [...$("listing").querySelectorAll(".bytes")].filter((it) => !it.closest("details:not([open])"));
const cellAt = (digit) => digit === null ? null : cells().find((it) => digit >> 1 >= +it.dataset.offset && digit >> 1 < +it.dataset.offset + +it.dataset.size);

function setCaret(digit) {
    const old = cellAt(now.caret);
    now.caret = digit;
    const fresh = cellAt(digit);
    for (const it of [old, fresh]) if (it) it.innerHTML = digitsOf(+it.dataset.offset, +it.dataset.size);
    if (fresh) fresh.scrollIntoView({ block: "nearest" });
    $("keys").classList.toggle("shown", digit !== null);
}

// The digit left or right of the cursor, or as far into the row above or below it, among the rows that are shown.
function moveCaret(by, isRow) {
    const all = cells();
    if (now.caret === null) return setCaret(2 * +(document.querySelector(".row.pc .bytes") || all[0]).dataset.offset);
    const k = all.indexOf(cellAt(now.caret)), own = all[k], from = 2 * +own.dataset.offset, end = from + 2 * +own.dataset.size;
    const inside = now.caret + by, next = all[k + (isRow ? by : inside < from ? -1 : 1)];
    if (!isRow && inside >= from && inside < end) return setCaret(inside);
    if (!next) return undefined;
    const first = 2 * +next.dataset.offset, last = first + 2 * +next.dataset.size - 1;
    return setCaret(isRow ? Math.min(first + now.caret - from, last) : by < 0 ? last : first);
}

// Types a digit over the one at the cursor.
function poke(digit, value) {
    const at = digit >> 1;
    now.image[at] = digit & 1 ? now.image[at] & 0xf0 | value : now.image[at] & 0x0f | value << 4;
    if (now.image[at] === now.built[at]) now.typed.delete(at); else now.typed.add(at);
    judge();
}

function type(key) {
    const moves = { ArrowLeft: [-1], ArrowRight: [1], Backspace: [-1], ArrowUp: [-1, true], ArrowDown: [1, true], Enter: [1, true] };
    if (/^[0-9a-fA-F]$/.test(key) && now.caret !== null) {
        const digit = now.caret;
        poke(digit, parseInt(key, 16));
        moveCaret(1);
    } else if (moves[key]) moveCaret(...moves[key]);
    else if (key === "Escape" && now.caret !== null) setCaret(null);
    else return false;
    return true;
}

function listenToListing() {
    $("listing").addEventListener("click", (event) => {
        const cell = event.target.closest(".bytes");
        if (!cell) return setCaret(null);
        // Each byte is two digits and a space of the same width.
        const box = cell.getBoundingClientRect(), size = +cell.dataset.size, wide = box.width / (3 * Math.min(size, LINE) - 1);
        const line = Math.floor((event.clientY - box.top) / (box.height / Math.ceil(size / LINE))), column = Math.floor((event.clientX - box.left) / wide);
        const byte = Math.min(LINE * line + Math.floor(column / 3), size - 1);
        return setCaret(2 * (+cell.dataset.offset + byte) + Math.min(column % 3, 1));
    });
    $("listing").addEventListener("toggle", ({ target }) => now.opened[target.open ? "add" : "delete"](target.dataset.key), true);
    $("listing").addEventListener("keydown", (event) => {
        if (event.target === $("listing") && !event.ctrlKey && !event.metaKey && !event.altKey && type(event.key)) event.preventDefault();
    });
    // A keyboard of digits for touch.
    for (const key of [..."0123456789abcdef", "◀", "▶", "✕"]) {
        const made = make("button", "", key);
        made.onclick = () => type({ "◀": "ArrowLeft", "▶": "ArrowRight", "✕": "Escape" }[key] || key);
        $("keys").append(made);
    }
}
