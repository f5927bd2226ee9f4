// The page: what is built, judged, listed and run beside the text that is edited.
"use strict";

const $ = (id) => document.getElementById(id);
const TYPING = 15, TYPING_MUCH = 250, MUCH = 20000;  // milliseconds from a key to the build; letters

let sfi, tool;  // the module, and its commands
const now = {   // what the page shows
    text: "", image: null, built: null, names: new Map(), isWords: false, sandboxes: [], findings: new Map(), typed: new Set(), caret: null, opened: new Set(),
    verdict: null, times: {}, world: null, which: 0, going: 0, counts: new Map(), before: null, touched: null, limit: MOST_ROWS, pcPlace: "",
};

const make = (name, kind = "", text = "") => {
    const made = document.createElement(name);
    made.className = kind;
    made.textContent = text;
    return made;
};

const isImage = (text) => /^\s*5\s*3\s*4\s*6\s*4\s*9[0-9a-fA-F\s]*$/.test(text);

function timed(what, does) {
    const begun = performance.now(), result = does();
    now.times[what] = performance.now() - begun;
    return result;
}

// A key that stands for a label's or a gate's place, with its name: of the lines that push_map_line of sfi_answers appends.
function namesOf(text) {
    const lines = tool.answer(["map"], text).text.trim().split("\n").filter(Boolean).map((it) => /^sandbox=(\d+) (\w+) (\S+) at=(\w+)$/.exec(it));
    return new Map(lines.filter((it) => it[2] !== "data").map(([, sandbox, , name, at]) => [`${sandbox} ${at}`, { name }]));
}

// Builds the text, unless it is an image already.
function build() {
    now.text = $("source").value;
    $("format").disabled = isImage(now.text);
    $("format").value = formatOf(now.text);
    const made = isImage(now.text) ? { status: 0, text: now.text } : timed("build", () => tool.answer(["build"], now.text));
    number(made.status ? +(/ line (\d+)/.exec(made.text) || [0, 0])[1] : 0);
    $("fault").hidden = !made.status;
    $("fault").textContent = made.status ? explained(made.text.trim(), now.text) : "";
    $("listing").classList.toggle("stale", made.status !== 0);
    $("save").disabled = made.status !== 0;
    if (made.status) return refuse(made.text.trim());
    now.image = bytesOf(made.text);
    now.built = now.image.slice();
    now.typed = new Set();
    now.limit = MOST_ROWS;
    now.names = isImage(now.text) ? new Map() : namesOf(now.text);
    now.sandboxes = [];
    setCaret(null);
    return judge();
}

// Of a text with a fault nothing runs: the image that is shown is that of an earlier one.
function refuse(fault) {
    now.going++;
    allowRuns();
    show({ kind: "fault", text: fault });
}

// The verdict on the image as it is now, its listing, and a world of it.
function judge() {
    const digits = hexOf(now.image), verdict = timed("check", () => tool.answer(["check", "--report"], digits));
    const listing = timed("dis", () => tool.answer(["dis"], digits)), lines = verdict.text.trim().split("\n");
    now.verdict = { kind: ["accepted", "refused", "fault"][verdict.status], text: lines.pop(), status: verdict.status };
    now.findings = new Map();
    for (const line of lines) {
        const [sandbox, at, rule] = line.split(" "), place = `${sandbox} ${at}`;
        now.findings.set(place, [...(now.findings.get(place) || []), { rule }]);
    }
    if (listing.status === 0) {
        now.isWords = /^format SFI[WS]/.test(listing.text);
        now.sandboxes = parseListing(listing.text);
    }
    $("listing").classList.toggle("stale", listing.status !== 0);
    $("size").textContent = `${now.image.length} bytes of image`;
    $("unpoke").disabled = now.typed.size === 0;
    show(now.verdict);
    restart();
}

const counted = (number, one, many) => `${number} ${+number === 1 ? one : many}`;

function show(verdict) {
    const box = $("verdict"), accepted = /^accepted sandboxes=(\d+) bundles=(\d+)/.exec(verdict.text), refused = /^refused findings=(\d+) first=(V\d+)/.exec(verdict.text);
    box.className = verdict.kind;
    box.dataset.text = box.title = verdict.text;
    box.firstChild.textContent = accepted ? `✓ Accepted: ${counted(accepted[1], "sandbox", "sandboxes")}, ${counted(accepted[2], "bundle", "bundles")}`
        : refused ? `✗ Refused: ${counted(refused[1], "finding", "findings")}, the first of ${refused[2]}` : `✗ ${explained(verdict.text, now.text)}`;
    box.lastChild.textContent = verdict.kind === "fault" ? "" : `judged in ${now.times.check.toFixed(1)} ms`;
}

// The numbers of the text's lines, with a mark at the one with a fault.
function number(bad) {
    $("numbers").innerHTML = now.text.split("\n").map((_, i) => i + 1 === bad ? `<b>● ${i + 1}</b>` : i + 1).join("\n");
    $("numbers").scrollTop = $("source").scrollTop;
}

// The text with another line `.format`, which the first format needs none of.
function setFormat(form) {
    const plain = $("source").value.replace(/^[ \t]*\.format\b.*\n/m, "");
    $("source").value = form === "1" ? plain : plain.replace(/^[ \t]*\.sandbox\b/m, `.format ${form}\n$&`);
    build();
}

const formatOf = (text) => (/^[ \t]*\.format[ \t]+(\w+)/m.exec(text) || ["", "1"])[1];

function setText(text, input = "") {
    now.which = 0;
    $("input").value = input;
    $("source").value = text;
    $("source").scrollTop = $("listing").scrollTop = 0;
    build();
}

// What an address says behind its #: an example's name, or a text and an input.
function openAddress(hash) {
    if (!hash.startsWith("text=")) return pick(decodeURIComponent(hash));
    const [text, input] = hash.slice("text=".length).split("&input=").map(decodeURIComponent);
    $("pick").selectedIndex = -1;
    return setText(text, input);
}

function link() {
    history.replaceState(null, "", `#text=${encodeURIComponent(now.text)}&input=${encodeURIComponent($("input").value)}`);
}

function save() {
    const to = make("a");
    to.href = URL.createObjectURL(new Blob([now.image]));
    to.download = "sandbox.image";
    to.click();
    URL.revokeObjectURL(to.href);
}

function pick(name) {
    const example = EXAMPLES.find((it) => it.name === name) || EXAMPLES[0];
    $("pick").value = example.name;
    setText(example.text, example.input);
    for (const [at, digits] of example.typed || []) {
        bytesOf(digits).forEach((byte, k) => { now.image[at + k] = byte; now.typed.add(at + k); });
        judge();
    }
}

// A source text, an image's digits, or its bytes.
async function openFile(file) {
    const bytes = new Uint8Array(await file.arrayBuffer()), isRaw = text8.decode(bytes.subarray(0, 3)) === "SFI";
    $("pick").selectedIndex = -1;
    setText(isRaw ? hexOf(bytes) : text8.decode(bytes));
}

function listenToPage() {
    let later = 0;
    $("source").addEventListener("input", () => { clearTimeout(later); later = setTimeout(build, now.text.length > MUCH ? TYPING_MUCH : TYPING); });
    $("source").addEventListener("scroll", () => { $("numbers").scrollTop = $("source").scrollTop; });
    $("unpoke").onclick = build;
    $("format").onchange = () => setFormat($("format").value);
    $("ask").onclick = () => $("about").showModal();
    $("pick").onchange = () => { location.hash = $("pick").value; };
    $("link").onclick = link;
    $("save").onclick = save;
    addEventListener("hashchange", () => openAddress(location.hash.slice(1)));
    $("file").onchange = () => { if ($("file").files[0]) openFile($("file").files[0]); $("file").value = ""; };
    $("opener").onkeydown = (event) => { if (event.key === "Enter" || event.key === " ") $("file").click(); };
    for (const name of ["dragover", "drop"]) addEventListener(name, (event) => {
        event.preventDefault();
        document.body.classList.toggle("dropping", name === "dragover");
        if (name === "drop" && event.dataTransfer.files[0]) openFile(event.dataTransfer.files[0]);
    });
    addEventListener("dragleave", () => document.body.classList.remove("dropping"));
    for (const it of document.querySelectorAll("nav button")) it.onclick = () => setTab(it.dataset.tab);
}

// Which part is shown where there is room for one.
function setTab(tab) {
    document.querySelector("main").dataset.tab = tab;
    for (const it of document.querySelectorAll("nav button")) it.setAttribute("aria-pressed", it.dataset.tab === tab);
}

function fillPick() {
    for (const title of new Set(EXAMPLES.map((it) => it.group))) {
        const group = make("optgroup");
        group.label = title;
        group.append(...EXAMPLES.filter((it) => it.group === title).map((it) => new Option(it.title, it.name)));
        $("pick").append(group);
    }
}

async function start() {
    const begun = performance.now();
    if (typeof EXAMPLES === "undefined") return show({ kind: "fault", text: "made.js isn't there: tools/build_page.py makes it" });
    fillPick();
    setTab("image");
    listenToPage();
    listenToListing();
    listenToRun();
    try {
        sfi = await Module.load();
    } catch (error) {
        return show({ kind: "fault", text: `sfi.wasm doesn't run here: ${error.message}` });
    }
    tool = new Tool(sfi);
    openAddress(location.hash.slice(1));
    now.times.load = performance.now() - begun;
    document.body.dataset.ready = "yes";
    return undefined;
}
start();
