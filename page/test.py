#!/usr/bin/env python3
"""Tries the page in headless Chromium: what it shows of each example, in words, and by turns in the other formats, has to be what the
program prints.

    page/test.py [--program PATH] [--file] [--shots FOLDER] [--measure]

tools/build_page.py goes first. --file opens the page as a file, else it comes from a server here; --shots writes pictures;
--measure prints times and sizes. The last line is `N passed, M failed`, and the status 0 where M is 0.
"""
import argparse
import functools
import http.server
import json
import os
import random
import re
import shutil
import subprocess
import sys
import threading

PAGE = os.path.dirname(os.path.abspath(__file__))
TOP = os.path.dirname(PAGE)
sys.dont_write_bytecode = True
sys.path.insert(0, os.path.join(TOP, "tools"))
import testing
from suygapid.trials import chromium

POKES = 6
ROUNDS = 40
MADE = ["made.js", "sfi.wasm", "sfi.wasm.js"]

# Of each row of code its address, its digits and its text; of those that aren't shown, how many are told of.
ROWS = r"""[...document.querySelectorAll('.row.code')].map((row) => [row.querySelector('.at').textContent,
    row.querySelector('.bytes').textContent.replace(/\s/g, ''), row.querySelector('.asm').firstChild.textContent])"""
HIDDEN = "[...document.querySelectorAll('[data-rows]')].reduce((sum, it) => sum + +it.dataset.rows, 0)"
FIELDS = r"[...document.querySelectorAll('.row.field .bytes')].map((it) => [+it.dataset.offset, it.textContent.replace(/\s/g, '')])"
# A text, and what the page says of its fault.
FAULTS = [
    (".sandbox 256\nhere:  lbx a0, 0(a1)  # no such\n", "source:2:8: unknown word 'lbx'"),
    (".sandbox 256\n\tlw a0, 4096(a1)\n", "source:2:2: a number, in its range, is expected: 'lw a0, 4096(a1)'"),
    (".sandbox 256\n  j nowhere\n", "source:2:5: no label or gate has the name 'nowhere'"),
    (".sandbox 256\na: nop\na: nop\n", "source:3:1: this sandbox already has a label or gate 'a'"),
    (".data\n", "source:1:1: this may not stand here, or there is no .sandbox before it: '.data'"),
    ("#include <stdio.h>\nint main(void) { return 0; }\n", "source:1:1: this is no assembly: tools/sfi-cc makes an image of C"),
]
FINDINGS = "document.querySelectorAll('.finding').length"
VERDICT = "$('verdict').dataset.text"
LINES = """((rounds) => { const world = new World(sfi, now.image, utf8.encode($('input').value));
    for (let k = 0; k < rounds; k++) for (let i = 0; i < world.count; i++) world.take(i, 1000);
    const text = world.lines(); world.close(); return text; })"""


class Counts:
    passed = failed = 0

    @classmethod
    def expect(cls, what, found, wanted):
        if found == wanted:
            cls.passed += 1
        else:
            cls.failed += 1
            print(f"FAILED {what}\n    wanted {str(wanted)[:300]!r}\n    found  {str(found)[:300]!r}")


expect = Counts.expect


class Program:
    """The program sfi."""

    def __init__(self, path):
        self.path = path

    def answer(self, words, text):
        """A command's status, and what it prints on a text."""
        ran = subprocess.run([self.path, *words], input=text.encode(), capture_output=True, check=False)
        return [ran.returncode, ran.stdout.decode()]


def spoken(words, text):
    """What the page's module answers to a command."""
    return f"(() => {{ const it = tool.answer({json.dumps(words)}, {text}); return [it.status, it.text]; }})()"


def rows_wanted(listing):
    """Of each instruction its address, its bytes in memory's order, and its text."""
    found = []
    for line in listing.split("\n"):
        at, _, rest = line.partition(" ")
        if len(at) == 8 and rest.startswith(".bytes "):
            found.append([at, rest.removeprefix(".bytes "), "no instruction"])  # in memory's order already
        elif len(at) == 8 and rest:
            digits, _, text = rest.partition(" ")
            found.append([at, bytes.fromhex(digits)[::-1].hex(), text])
    return found


def try_listing(page, what, listing, image):
    """Each row of the listing is shown as it is, or counted among those that are told of; each field has the image's bytes."""
    rows, whole = page.value(ROWS), rows_wanted(listing)
    by_place = {it[0]: it for it in whole}
    expect(f"{what}: rows shown", rows, [by_place.get(it[0]) for it in rows])
    expect(f"{what}: rows shown and told of", len(rows) + page.value(HIDDEN), len(whole))
    fields = page.value(FIELDS)
    expect(f"{what}: fields shown", fields, [[at, image[2 * at:2 * at + len(digits)]] for at, digits in fields])


def try_verdict(page, program, what, image):
    """The verdict, the findings and the listing of the image that the page holds. Whether it is an image that runs."""
    status, text = program.answer(["check", "--report"], image)
    expect(f"{what}: verdict", page.value(f"[now.verdict.status, {VERDICT}]"), [status, text.strip().split("\n")[-1]])
    if status < 2:
        expect(f"{what}: findings", page.value(FINDINGS), text.count("\n") - 1)
        try_listing(page, what, program.answer(["dis"], image)[1], image)
    return status == 0


def try_run(page, program, what, image):
    """The image runs by the module's command, by turns, and by the button, with the same steps and output."""
    given = page.value("hexOf(utf8.encode($('input').value))")
    words = ["run", "--rounds", str(ROUNDS), "--input", given]
    wanted = program.answer(words, image)
    expect(f"{what}: run, by the command", page.value(spoken(words, "hexOf(now.image)")), wanted)
    expect(f"{what}: run, by turns", page.value(f"{LINES}({ROUNDS})"), wanted[1])
    last = program.answer(["run", "--rounds", "10000", "--input", given], image)[1]
    page.value("go()")
    expect(f"{what}: the button Run", page.value("now.world.lines()"), last)
    steps = sum(int(it) for it in re.findall(r"steps=(\d+)", last))
    expect(f"{what}: steps of the profile", page.value("[...now.counts.values()].reduce((a, b) => a + b, 0)"), steps)
    expect(f"{what}: steps by names", page.value("stepsByName().reduce((a, b) => a + b.steps, 0)"), steps)
    names = page.value("[...$('profile').querySelectorAll('b')].map((it) => it.textContent)")
    expect(f"{what}: names of the profile", names, page.value("stepsByName().slice(0, MOST_PROFILED)"
                                                              ".map((it) => (now.sandboxes.length > 1 ? it.sandbox + ': ' : '') + it.name)"))
    output = bytes.fromhex(re.search(r"out=(\w*)$", last, re.MULTILINE)[1])  # of the first sandbox
    shown = page.value("$('console').textContent")
    expect(f"{what}: output shown", shown, output[-4000:].decode(errors="replace") or "nothing yet")


def try_pokes(page, program, what, image):
    """Digits typed over the image's, each on top of the ones before, half of them near its front."""
    chance = random.Random(what)
    for k in range(POKES):
        digit = chance.randrange(len(image)) if k % 2 == 0 else chance.randrange(8, min(len(image), 1200))
        page.value(f"poke({digit}, {chance.randrange(16)})")
        try_verdict(page, program, f"{what}: digit {digit} typed over", page.value("hexOf(now.image)"))


def try_example(page, program, example, form):
    """An example in a format; one that is refused, or an image, in its own alone."""
    what = f"{example['name']}, format {form}" if form else example["name"]
    page.value(f"pick({json.dumps(example['name'])})")
    if form:
        page.value(f"setFormat({json.dumps(form)})")
        text = page.value("now.text")
        expect(f"{what}: build", page.value(spoken(["build"], "now.text")), program.answer(["build"], text))
        expect(f"{what}: map", page.value(spoken(["map"], "now.text")), program.answer(["map"], text))
        if page.value("!$('fault').hidden"):
            return expect(f"{what}: fault shown", page.value(VERDICT), program.answer(["build"], text)[1].strip())
    image = page.value("hexOf(now.image)")
    expect(f"{what}: dis", page.value(spoken(["dis"], "hexOf(now.image)")), program.answer(["dis"], image))
    if try_verdict(page, program, what, image):
        try_run(page, program, what, image)
    return try_pokes(page, program, what, image)


def try_hand(page, program):
    """What a hand does: keys, a click on a byte, a step, a dropped file, and a text with a fault."""
    page.value("pick('hi')")
    image = page.value("hexOf(now.image)")
    x, y = page.value("(() => { const box = document.querySelector('.row.code .bytes').getBoundingClientRect();"
                      " return [box.left + box.width * 0.5 / 11, box.top + box.height / 2]; })()")
    page.click(x, y)
    expect("a click puts the cursor on a digit", page.value("now.caret"), page.value("2 * now.sandboxes[0].offset"))
    for key in "Enter", "ArrowRight", "f":
        page.key(key)
    at = page.value("2 * now.sandboxes[0].offset") + 2 * page.value("now.sandboxes[0].rows[0].size") + 1
    expect("a digit is typed", page.value("hexOf(now.image)"), image[:at] + "f" + image[at + 1:])
    page.key("Escape")
    page.value("$('unpoke').click()")
    expect("what was typed is taken back", page.value("hexOf(now.image)"), image)
    page.key("F10")
    expect("F10 is a step", page.value("now.world.steps(0)"), 1)
    page.key("F8")
    expect("F8 runs to the call", page.value("now.world.event(0).kind"), "call")
    page.value("Promise.resolve($('go').click())")
    page.wait("now.world.isOver() && !$('go').disabled")
    expect("the profile's row", page.value("document.querySelector('.bar span').textContent"), "1")
    page.value("setText('.sandbox 256\\nbogus a0\\n')")
    expect("a fault's line is marked", page.value("$('numbers').querySelector('b').textContent"), "● 2")
    expect("a fault is shown", page.value(VERDICT), program.answer(["build"], ".sandbox 256\nbogus a0\n")[1].strip())
    expect("nothing runs after a fault", page.value("['step', 'call', 'go', 'reset', 'save'].every((id) => $(id).disabled)"), True)
    steps = page.value("now.world.steps(0)")
    page.key("F10")
    expect("nor by a key", page.value("now.world.steps(0)"), steps)
    for text, said in FAULTS:
        page.value(f"setText({json.dumps(text)})")
        expect(f"what is said of {text!r}", page.value("$('fault').textContent").partition(" (")[0], said)
    page.value("setText('53 46 49 31')")
    expect("what is said of a cut image", page.value("$('verdict').firstChild.textContent"), "✗ image: bytes are missing at the end (layout fault 3 Short)")
    page.value("setText('.sandbox 256\\n  # 100 %\\nebreak\\n', 'a&b'), $('link').click()")
    linked = page.value("[hexOf(now.image), now.text, location.hash]")
    page.value(f"pick('primes'), openAddress({json.dumps(linked[2][1:])})")
    expect("a link carries the text", page.value("[hexOf(now.image), now.text]"), linked[:2])
    expect("a link carries the input", page.value("$('input').value"), "a&b")
    page.resize(1280, 800)
    page.value("pick('sort')")
    expect("the data's letters are seen", page.value("$('data').scrollWidth <= $('data').clientWidth"), True)
    expect("the source's pane", page.value("$('source').clientWidth > 250"), True)
    page.resize(1500, 940)
    drop = "(async () => { const given = new DataTransfer(); given.items.add(new File([%s], 'x.image'));" \
        " dispatchEvent(new DragEvent('drop', { dataTransfer: given })); })()"
    for what, data in ("bytes", f"bytesOf('{image}')"), ("digits", f"'{image}'"):
        page.value("pick('primes')")
        page.value(drop % data)
        page.wait(f"hexOf(now.image) === '{image}'")
        expect(f"a dropped image, its {what}", page.value(VERDICT), program.answer(["check"], image)[1].strip())


def shoot(page, folder):
    """Pictures of the page: light and dark, on a desk and on a phone."""
    os.makedirs(folder, exist_ok=True)
    stages = {
        "accepted": "pick('hi')", "refused": "pick('no-mask')", "run": "pick('echo'), go()",
        "step": "pick('fibonacci'), Array.from({ length: 60 }, step)[0]", "two": "pick('primes'), go()", "words": "pick('hanoi'), setFormat('words'), go()",
        "c": "pick('c-sort'), go()", "fault": "pick('hi'), setText(now.text + 'bogus a0\\n')",
        "typed": "pick('hi'), setCaret(2 * 116), [...'7fff'].forEach(type)", "about": "pick('hi'), $('about').showModal()",
    }
    for name, does in stages.items():
        page.value(f"Promise.resolve(({does}, 0))")
        page.wait("!now.world || now.world.status || !$('fault').hidden || !$('go').disabled")
        page.shot(os.path.join(folder, f"{name}.png"))
        page.value("$('about').close()")
    page.dark(True)
    for name in "step", "refused":
        page.value(f"{stages[name]}, 0")
        page.shot(os.path.join(folder, f"dark-{name}.png"))
    page.resize(390, 800, 2, True)
    for name, tab in ("refused", "image"), ("typed", "image"), ("step", "run"), ("fault", "text"):
        for is_dark in False, True:
            page.dark(is_dark)
            page.value(f"setTab('{tab}'), {stages[name]}, 0")
            page.shot(os.path.join(folder, f"phone-{name}{'-dark' if is_dark else ''}.png"))
    page.dark(False)
    page.resize(1500, 940)


def measure(page, program):
    """Times on an image of 64 KiB of code, each the mean over 400 ms: the clock has steps of 0.1 ms."""
    text = ".sandbox 4096\n" + "lw a0, 0(a1)\nadd a2, a0, a3\nsw a2, 4(a1)\nxor a4, a4, a2\n" * 1360 + "ebreak\n"
    image = program.answer(["build"], text)[1].strip()
    page.value(f"now.big = {json.dumps(image)}, now.bigText = {json.dumps(text)}, now.bigBytes = bytesOf(now.big), 0")
    expect("measured: check", page.value(spoken(["check"], "now.big")), program.answer(["check"], image))
    timed = "(() => { let times = 0; const begun = performance.now(); while (performance.now() - begun < 400) { %s; times++; }" \
        " return (performance.now() - begun) / times; })()"
    found = {"load, ms": page.value("now.times.load"), "module, bytes": page.value("sfi.size"), "image, bytes": len(image) // 2}
    for what, does in (("check --raw", "tool.answer(['check', '--raw'], now.bigBytes)"), ("check", "tool.answer(['check'], now.big)"),
                       ("dis", "tool.answer(['dis'], now.big)"), ("build", "tool.answer(['build'], now.bigText)"),
                       ("load a world", "new World(sfi, now.bigBytes, new Uint8Array()).close()")):
        found[f"{what}, ms"] = page.value(timed % does)
    page.value("setText(now.big)")
    found["a digit typed, with painting, ms"] = page.value(timed % "poke(4000, times % 16), document.body.offsetHeight")
    loop = program.answer(["build"], ".sandbox 256\nagain: addi a0, a0, 1\nxor a1, a1, a0\nadd a2, a2, a1\nj again\n")[1].strip()
    for what, does in ("one by one", "world.takeSteps(0, 1000, () => {})"), ("by turns", "world.take(0, 1000000)"):
        steps, took = page.value(f"(() => {{ const world = new World(sfi, bytesOf('{loop}'), new Uint8Array()), begun = performance.now();"
                                 f" while (performance.now() - begun < 1000) {does};"
                                 " const it = [world.steps(0), performance.now() - begun]; world.close(); return it; })()")
        found[f"steps a second, {what}"] = round(steps / took * 1000)
    for what, value in found.items():
        print(f"measured: {what}: {value if isinstance(value, int) else round(value, 2)}")


def obstacle(options):
    """Why the page can't be tried, if it can't."""
    if not options.chromium:
        return "there is no chromium"
    missing = [it for it in MADE if not os.path.exists(os.path.join(PAGE, it))]
    return f"{missing[0]} isn't made: tools/build_page.py" if missing else None


def address(options):
    """Where the page is: in this folder, or at a server that ends with this process."""
    if options.file:
        return f"file://{PAGE}/index.html"

    class Quiet(http.server.SimpleHTTPRequestHandler):
        def log_message(self, *_):
            pass

    server = http.server.ThreadingHTTPServer(("127.0.0.1", 0), functools.partial(Quiet, directory=PAGE))
    threading.Thread(target=server.serve_forever, daemon=True).start()
    return f"http://127.0.0.1:{server.server_port}/index.html"


def try_page(page, options):
    program = Program(options.program)
    if options.shots:
        return shoot(page, options.shots)
    if options.measure:
        return measure(page, program)
    for number, example in enumerate(json.loads(page.value("JSON.stringify(EXAMPLES)"))):
        is_source = "typed" not in example and example["group"] != "Images"
        for form in testing.formats_due(number, 3) if is_source else [None]:
            try_example(page, program, example, form)
    try_hand(page, program)
    return expect("the page's complaints", page.complaints, [])


def main():
    parser = argparse.ArgumentParser(description=__doc__.split("\n\n", maxsplit=1)[0])
    parser.add_argument("--program", default=os.path.join(TOP, "crates", "sfi", "out", "sfi"))
    parser.add_argument("--chromium", default=shutil.which("chromium"))
    parser.add_argument("--shots")
    parser.add_argument("--file", action="store_true")
    parser.add_argument("--measure", action="store_true")
    options = parser.parse_args()
    why = obstacle(options)
    if why:
        print(f"skipped: the page: {why}\n0 passed, 0 failed, 1 skipped")
        return 0
    page = chromium.Page(options.chromium, address(options))
    try:
        try_page(page, options)
    finally:
        page.end()
    print(f"{Counts.passed} passed, {Counts.failed} failed")
    return 1 if Counts.failed else 0


if __name__ == "__main__":
    sys.exit(main())
