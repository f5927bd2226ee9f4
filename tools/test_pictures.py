"""Tests of the pictures of sfi-trace --flame and sfi-map, as files and as Chromium draws them: `tools/unit_tests.py tools
test_pictures.py`. They are skipped where the program, the library of the runtime or gcc isn't there, and the last where Chromium isn't.
What is wanted is what a C or source text calls by its own words, and what the profile, `sfi dis`, `sfi map` and `sfi check` say."""
import json
import os
import re
import shutil
import subprocess
import unittest
import xml.etree.ElementTree as ElementTree
from collections import Counter

import libraries
from suygapid.pictures.flame import DEEPEST
from suygapid.trials import chromium
from testing import GCC, SFI, TOOLS, TOP, Folder, by_turns, formats_due, needs

READY = os.path.exists(SFI) and os.path.exists(libraries.built("sfi_run")) and shutil.which("gcc")
SVG = "{http://www.w3.org/2000/svg}"
TOLD = re.compile(r"^(.*): (\d+) steps(?:, (\d+) its own)?, [\d.]+%$")
# leaf is called by a jump in the place of a return, twice is called by a pointer, and deep calls itself.
CALLS = """#include "gates.h"

#define OWN __attribute__((noinline, noclone))
volatile int sink;

OWN void leaf(int x) { sink += x; }
OWN void last(int x) { sink -= 1; leaf(x); }
OWN void twice(void) { leaf(1); leaf(2); sink = 0; }
OWN void deep(int n) { if (n) deep(n - 1); sink = n; }

void (*volatile pointed)(void) = twice;

int main(void) {
    last(5);
    pointed();
    deep(2);
    sink = 7;
    return 0;
}
"""
# down calls itself 300 times.
DEEP = """.format 2
.sandbox 8192
.gate quit 0
        li   a0, 300
        call down
        call quit
down:   beqz a0, end
        addi sp, sp, -16
        sw   ra, 0(sp)
        addi a0, a0, -1
        call down
        lw   ra, 0(sp)
        addi sp, sp, 16
end:    ret
"""
CHROMIUM = shutil.which("chromium") or shutil.which("chromium-browser")
READABLE = 11  # pixels of a line's height
LOADED = "document.readyState === 'complete' && document.querySelector('text') !== null"
WHOLE = "(({ x, y, width, height }) => ({ x, y, width, height }))(document.documentElement.getBoundingClientRect())"
# Of each text its words, where it lies, its box and that one's colour, and whether nothing is drawn above its middle.
TEXTS = """[...document.querySelectorAll("text")].map((it) => {
    const rect = it.parentNode.querySelector(":scope > rect"), { x, y, width, height } = it.getBoundingClientRect();
    const { x: left, y: top, width: wide, height: high } = (rect || it).getBoundingClientRect();
    it.scrollIntoView({ block: "center" });
    const now = it.getBoundingClientRect(), found = document.elementFromPoint(now.x + now.width / 2, now.y + now.height / 2);
    scrollTo(0, 0);
    return { text: it.textContent, x, y, width, height, box: rect && { x: left, y: top, width: wide, height: high },
             colour: getComputedStyle(it).fill, fill: rect && getComputedStyle(rect).fill, isOnTop: found === it || found === rect };
})"""
CALLED = {"leaf": 3, "last": 1, "twice": 1, "deep": 3, "main": 1}


@unittest.skipUnless(READY, "the program, the library of the runtime or gcc isn't there")
class Pictures(Folder):
    @classmethod
    def setUpClass(cls):
        cls.env = {**os.environ, "SFI_RUN_LIBRARY": libraries.make("sfi_run")[1]}

    def call(self, tool, *words):
        done = subprocess.run([TOOLS / tool, "--program", SFI, *words], capture_output=True, text=True, check=False, env=self.env)
        return done.returncode, done.stdout, done.stderr

    def picture(self, name):
        """A picture's root, which is well-formed and needs no other file."""
        text = self.read(name)
        self.assertNotRegex(text, r"<script|href|url\(")
        root = ElementTree.fromstring(text)
        self.assertEqual(root.tag, f"{SVG}svg")
        width, height = map(float, root.get("viewBox").split()[2:])
        for it in root.iter(f"{SVG}rect"):
            x, y, wide, high = (float(it.get(name)) for name in ("x", "y", "width", "height"))
            self.assertTrue(x >= 0 and y >= 0 and x + wide <= width + 1 and y + high <= height, ElementTree.tostring(it))
        return root


class Flames(Pictures):
    def flame(self, *words):
        """The last lines of the trace, the paths with their steps of each sandbox, and the picture."""
        status, printed, said = self.call("sfi-trace", "--flame", self.path("run"), *words)
        self.assertEqual((status, said), (0, ""))
        told = json.loads(self.read("run.speedscope.json"))
        frames = [it["name"] for it in told["shared"]["frames"]]
        paths = [{tuple(frames[k] for k in sample): weight for sample, weight in zip(it["samples"], it["weights"])} for it in told["profiles"]]
        for it, own in zip(told["profiles"], paths):
            self.assertEqual((it["type"], it["startValue"], it["endValue"]), ("sampled", 0, sum(own.values())))
        return printed, paths, self.picture("run.svg")

    def own_steps(self, root):
        """The steps of each function's own by the picture, and its whole."""
        own, whole = Counter(), 0
        for title in root.iter(f"{SVG}title"):
            name, steps, its = TOLD.match(title.text).groups()
            own[name] += int(its or steps) if its != "0" else 0
        for it in root.iter(f"{SVG}text"):
            if it.get("class") == "title":
                whole = int(re.search(r": ([\d,]+) steps$", it.text)[1].replace(",", ""))
        return +own, whole

    def profile(self, *words):
        printed = self.call("sfi-trace", "--profile", "function", *words)[1].splitlines()
        return {it.split()[2]: int(it.split()[0]) for it in printed if re.match(r" *\d+ +[\d.]+%", it)}

    def test_steps_are_those_of_the_profile(self):
        for file in by_turns(("hanoi.s", "fibonacci.s", "sort.s"), 1):
            printed, (paths,), root = self.flame(TOP / "examples" / file)
            own, whole = self.own_steps(root)
            by_paths = Counter()
            for path, count in paths.items():
                by_paths[path[-1]] += count
            steps = int(re.search(r" steps=(\d+) ", printed)[1])
            self.assertEqual((own, by_paths, whole), (self.profile(TOP / "examples" / file), own, steps), file)

    def test_two_sandboxes(self):
        printed, paths, root = self.flame(TOP / "examples" / "primes.s")
        wanted = [int(it) for it in re.findall(r" steps=(\d+) ", printed)]
        self.assertEqual([sum(it.values()) for it in paths], wanted)
        titles = [it.text for it in root.iter(f"{SVG}title")]
        for number, steps in enumerate(wanted):
            self.assertTrue(any(it.startswith(f"sandbox {number}: {steps} steps, 0 its own") for it in titles), titles)

    def test_a_trap_is_no_step(self):
        _, paths, root = self.flame(TOP / "examples" / "smallest.hex")
        self.assertEqual((paths, self.own_steps(root)), ([], (Counter(), 0)))

    @needs(GCC)
    def test_calls_of_c(self):
        """A last call stands in its caller's place, and after a return no function is left."""
        file = self.write("calls.c", CALLS)
        for image_format in formats_due(0, 2):
            printed, (paths,), root = self.flame("-O2", "--format", image_format, file)
            steps = int(re.search(r" steps=(\d+) ", printed)[1])
            self.assertEqual((sum(paths.values()), self.own_steps(root)[1]), (steps, steps))
            open_at_main = {path[path.index("main"):] for path in paths if "main" in path}
            self.assertEqual(open_at_main, {("main",), ("main", "last"), ("main", "leaf"), ("main", "twice"), ("main", "twice", "leaf"),
                                            ("main", "deep"), ("main", "deep", "deep"), ("main", "deep", "deep", "deep")}, image_format)
            at_file = {it["name"]: it for it in json.loads(self.read("run.speedscope.json"))["shared"]["frames"]}
            self.assertEqual((os.path.basename(at_file["twice"]["file"]), at_file["twice"]["line"]), ("calls.c", 8))

    def test_deep_calls(self):
        """Steps of calls that go deeper than a picture are those of the deepest function in it, and the last return leads to the
        first caller. Calls without an end are drawn, too."""
        for steps, name, text in ((1000000, "deep.s", DEEP), (20000, "endless.s", ".sandbox 256\ndown: call down\n")):
            printed, (paths,), root = self.flame("--steps", str(steps), self.write(name, text))
            ran = int(re.search(r" steps=(\d+) ", printed)[1])
            self.assertEqual((sum(paths.values()), self.own_steps(root)[1], max(map(len, paths))), (ran, ran, DEEPEST), name)
            self.assertEqual({it for it in paths if "quit" in it}, {("start", "quit")} if text == DEEP else set())

    def test_names_that_XML_has_no_place_for(self):
        for name in ("<b>&\"'.s", "a\x01b.s", os.fsdecode(b"a\xffb.s"), "a\nb.s"):
            with self.subTest(name):
                shutil.copyfile(TOP / "examples" / "hi.s", self.path(name))
                _, _, root = self.flame(self.path(name))
                self.assertEqual(self.call("sfi-map", "-o", self.path("map.svg"), self.path(name))[::2], (0, ""))
                for it in (root, self.picture("map.svg")):
                    self.assertIn("b", it.get("aria-label"))

    def test_where_it_cannot_be_written(self):
        status, _, said = self.call("sfi-trace", "--flame", "/none/x", TOP / "examples" / "hi.s")
        self.assertEqual(status, 1)
        self.assertIn("sfi-trace: ", said)


class Maps(Pictures):
    def map(self, *words):
        status, printed, said = self.call("sfi-map", "-o", self.path("map.svg"), *words)
        self.assertEqual((status, printed, said), (0, "", ""))
        root = self.picture("map.svg")
        return [it.text for it in root.iter(f"{SVG}title")], [it.text for it in root.iter(f"{SVG}text")]

    def sfi(self, *words, given):
        return subprocess.run([SFI, *words], input=given, capture_output=True, text=True, check=False).stdout

    def test_regions_gates_and_names(self):
        text = (TOP / "examples" / "primes.s").read_text(encoding="utf-8")
        titles, texts = self.map(TOP / "examples" / "primes.s")
        listing = self.sfi("dis", given=self.sfi("build", given=text))
        for number, code, size, data, room, start in re.findall(r"^sandbox (\d) code (\w+) (\d+) data (\w+) (\d+) start (\w+)", listing, re.M):
            self.assertIn(f"sandbox {number}: code {code}, {size} bytes", texts)
            self.assertTrue(any(it.startswith(f"data {data}, {room} bytes, ") for it in texts))
            self.assertTrue(any(it.startswith(f"start {start}, ") for it in texts))
        for name, at in re.findall(r" gate (\S+) at=(\w+)$", self.sfi("map", given=text), re.M):
            self.assertIn(f"gate {name}: 16 bytes from {at}", titles)
        pieces = [re.match(r"(.*): (\d+) bytes from (\w+)$", it) for it in titles]
        self.assertEqual(sum(int(it[2]) for it in pieces if it and int(it[3], 16) & 0x800000 == 0), 2 * 512)
        self.assertTrue(any(it and it[1] == "is_prime" for it in pieces))

    def test_findings(self):
        image = (TOP / "examples" / "smallest.hex").read_text(encoding="ascii").replace("73001000", "130c1c00", 1)
        file = self.write("broken.hex", image)
        (self.room / "broken.image").write_bytes(bytes.fromhex(image))
        for given in (file, self.room / "broken.image"):
            titles, texts = self.map(given)
            self.assertIn("01000000 V4 reserved addi x24, x24, 1", titles)
            self.assertIn("refused findings=1 first=V4 sandbox=0 at=01000000", texts)

    @needs(GCC)
    def test_objects_of_c(self):
        titles, _ = self.map(TOP / "examples" / "c" / "json.c")
        for name in ("main", "read_value", "input"):
            self.assertTrue(any(it.startswith(f"{name}: ") for it in titles), name)

    def test_faults(self):
        for words, told in (([self.path("none.hex")], "can't be read"), ([self.write("short.hex", "534649")], "layout fault"),
                            ([self.write("a.image", "SFI1")], "layout fault")):
            status, printed, said = self.call("sfi-map", *words)
            self.assertEqual((status, printed), (1, ""))
            self.assertIn("sfi-map: ", said)
            self.assertIn(told, said)
        self.assertEqual(self.call("sfi-map")[0], 2)


@unittest.skipUnless(CHROMIUM, "chromium isn't there")
class Seen(Pictures):
    """The pictures as Chromium draws them, each as a file that is opened, by one after another."""

    @classmethod
    def setUpClass(cls):
        super().setUpClass()
        cls.page = chromium.Page(CHROMIUM, "about:blank", ready="true")
        cls.addClassCleanup(cls.page.end)

    def seen(self, name):
        """The texts of a picture. They can be read: they are large enough, and lie in the picture, and those of a box in it, with nothing
        above them."""
        page = self.page
        page.call("Page.navigate", url=(self.room / name).as_uri())
        page.wait(LOADED)
        self.assertEqual(page.value("document.documentElement.localName"), "svg")
        whole, texts = page.value(WHOLE), page.value(TEXTS)
        self.assertEqual((whole["x"], whole["y"]), (0, 0))
        for it in texts:
            outer = it["box"] or whole
            self.assertTrue(outer["x"] <= it["x"] and it["x"] + it["width"] <= outer["x"] + outer["width"]
                            and outer["y"] <= it["y"] and it["y"] + it["height"] <= outer["y"] + outer["height"], (it, outer))
            self.assertTrue(it["isOnTop"] and it["colour"] != it["fill"] and it["height"] >= READABLE, it)
        self.assertEqual(page.complaints, [])
        return [it["text"] for it in texts]

    def test_a_flame_graph(self):
        self.assertEqual(self.call("sfi-trace", "--flame", self.path("run"), TOP / "examples" / "hanoi.s")[::2], (0, ""))
        texts = self.seen("run.svg")
        self.assertRegex(texts[0], r"^hanoi\.s: [\d,]+ steps$")
        self.assertIn("start", texts)

    def test_a_flame_graph_higher_than_a_window(self):
        self.assertEqual(self.call("sfi-trace", "--flame", self.path("run"), self.write("deep.s", DEEP))[::2], (0, ""))
        self.assertGreater(self.seen("run.svg").count("down"), 100)

    def test_a_map(self):
        self.assertEqual(self.call("sfi-map", "-o", self.path("map.svg"), TOP / "examples" / "primes.s")[::2], (0, ""))
        texts = self.seen("map.svg")
        self.assertIn("accepted sandboxes=2 bundles=64", texts)
        self.assertEqual(len([it for it in texts if it.startswith("sandbox ")]), 2)


if __name__ == "__main__":
    unittest.main()
