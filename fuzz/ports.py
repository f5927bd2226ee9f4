#!/usr/bin/env python3
"""Whether suygapid_run.c answers as libsfi_run, of which it is made, does: by each compiler that is there.

    fuzz/ports.py [--all] [--library PATH] [--file PATH] [--program PATH] [--rounds N] [--seconds S] [SEED ..]

Each case is the life of a world of fuzz/calls.py, of whose images the names are read and the console is run, and of one of fuzz/beside.py.
Their calls go to libsfi_run, and to a trace, which fuzz/player.c makes anew: once with libsfi_run, and with the file as each compiler
makes it, for other processors under qemu, for Windows by wine. Each call has to answer and write the same. Compilers have to make it without a
warning: gcc and, by turns, one of the others; with --all, and where `./test --all` says so, all. --file is what
tools/runtime_file.py makes. It wants gcc.
"""
import dataclasses
import os
import shutil
import struct
import subprocess
import sys
import tempfile
from concurrent.futures import ThreadPoolExecutor

TOP = os.path.dirname(os.path.dirname(os.path.abspath(__file__)))
sys.dont_write_bytecode = True
sys.path.insert(0, os.path.join(TOP, "tools"))
import beside
import libraries
import runtime_file
import testing
from suygapid.trials import fuzzing, lives, measure, verdicts, worlds

FILE = os.path.join(TOP, "crates", "sfi_run", "out", "suygapid_run.c")
PLAYER = os.path.join(TOP, "fuzz", "player.c")
# In the order of enum kind of player.c.
KINDS = """image look load module module_free instance add remove free move count turn until event reply exit stop reset read write enter
call call_back set_registers steps registers region version""".split()
WORLDS, MODULES = 4096, 16  # as in player.c
BATCH = 20  # so many cases are one trace
DIGEST = 8  # bytes of the player's for each call
WARNINGS = ["-std=c11", "-Wall", "-Wextra", "-pedantic", "-Werror"]


@dataclasses.dataclass(frozen=True)
class Port:
    """A compiler with its options, and by which words its programs are run."""
    name: str
    compiler: list
    runner: str


HERE = "{program} {trace} {digests}"
WINE = shutil.which("wine") or "/usr/lib/wine/wine64"  # where Debian's package wine64 has it, which has no command
BARE = ["riscv64-unknown-elf-gcc", "-O1", "-march=rv32imac", "-mabi=ilp32", "--specs=picolibc.specs", "--oslib=semihost", "--crt0=semihost",
        *(f"-Wl,--defsym=__{it}" for it in ("flash=0x80000000", "flash_size=0x400000", "ram=0x80400000", "ram_size=0xf000000", "stack_size=0x40000"))]
ON_BARE = ("qemu-system-riscv32 -M virt -m 256M -bios none -nographic -monitor none -serial none "
           "-semihosting-config enable=on,target=native,arg={trace},arg={digests} -kernel {program}")
PORTS = [
    Port("gcc, own heap", ["gcc", "-O1", "-DSUYGAPID_RUN_OWN_HEAP"], HERE),
    Port("clang", ["clang", "-O2"], HERE),
    Port("gcc, no threads", ["gcc", "-O1", "-DSUYGAPID_RUN_NO_THREADS", "-fsanitize=undefined", "-fno-sanitize-recover=all"], HERE),
    Port("aarch64", ["aarch64-linux-gnu-gcc", "-O2", "-static"], f"qemu-aarch64 {HERE}"),
    Port("armv7", ["arm-linux-gnueabihf-gcc", "-O2", "-static"], f"qemu-arm {HERE}"),
    Port("riscv64", ["riscv64-linux-gnu-gcc", "-O2", "-static"], f"qemu-riscv64 {HERE}"),
    Port("riscv32", BARE, ON_BARE),
    Port("MinGW", ["x86_64-w64-mingw32-gcc", "-O2"], f"{WINE} {{program}}.exe {{trace}} {{digests}}"),
]


def due(is_all):
    """The ports that are tried: all, or the first and by turns one of the others."""
    return PORTS if is_all else [PORTS[0], *testing.by_turns(PORTS[1:], 1)]


# ---- traces


class Trace:
    """The bytes of calls, as player.c reads them, and how many they are."""

    def __init__(self):
        self.records, self.images, self.worlds, self.modules = [], {}, 0, 0

    def put(self, kind, *numbers, data=b""):
        self.records.append(struct.pack(f"<3I{len(numbers)}Q", KINDS.index(kind), len(numbers), len(data), *numbers) + data)

    def image(self, data):
        """The number of an image, at whose first use what it says is looked at."""
        if data not in self.images:
            self.images[data] = len(self.images)
            self.put("image", 0, 0, data=data)
            self.put("look", self.images[data], 0)
        return self.images[data]

    def world(self):
        self.worlds += 1
        return self.worlds % WORLDS

    def module(self, data):
        self.modules += 1
        self.put("module", self.modules % MODULES, self.image(data))
        return self.modules % MODULES


class Traced:
    """A world of the library whose calls go to a trace, too."""

    def __init__(self, library, trace):
        self.library, self.trace, self.number = library, trace, trace.world()

    def __getattr__(self, kind):
        call = getattr(self.library, kind)

        def traced(*arguments):
            flat = [number for it in arguments for number in (it if isinstance(it, list) else [it])]
            self.trace.put(kind, self.number, *flat, *[0] * (3 - len(flat)))
            return call(*arguments)

        return traced

    def load(self, data):
        self.trace.put("load", self.number, self.trace.image(data))
        return self.library.load(data)

    def module(self, data):
        module = self.library.module(data)
        module.number = self.trace.module(data)
        return module

    def instance(self, module):
        self.trace.put("instance", self.number, module.number)
        return self.library.instance(module)

    def add(self, module):
        self.trace.put("add", self.number, module.number)
        return self.library.add(module)

    def until(self, number, stops, steps):
        self.trace.put("until", self.number, number, *stops, steps)
        return self.library.until(number, stops, steps)

    def write(self, number, at, given):
        self.trace.put("write", self.number, number, at, 0, data=given)
        return self.library.write(number, at, given)


class Cases:
    """Makes cases, and keeps of the trace where each ends."""

    def __init__(self, library, program, folder):
        judge = verdicts.Judge(folder)
        self.library, self.model = library, lambda: worlds.Model(judge)
        self.images, self.images_beside = lives.image_maker(program, judge), beside.images_of(program)
        self.trace, self.ends, self.tally = Trace(), [], fuzzing.Tally()
        self.trace.put("version", 0, 0)

    def world(self):
        return Traced(worlds.Library(self.library), self.trace)

    def live(self, case, pick):
        lives.World(pick, self.images, self.world(), self.model(), self.tally).live()
        beside.Beside(pick, self.images_beside, self.world(), self.world, self.tally).live()
        for number in range(MODULES):
            self.trace.put("module_free", number, 0)
        self.ends.append((case, len(self.trace.records)))


# ---- players


def compiled(port, folder, *made_of):
    """The path of the player, by a port's compiler; or what it complains of."""
    target = os.path.join(folder, port.name.replace(" ", "_"))
    includes = [f"-I{os.path.dirname(libraries.header(it))}" for it in libraries.HEADERS]
    done = subprocess.run([*port.compiler, *WARNINGS, *includes, PLAYER, *made_of, "-o", target], capture_output=True, text=True, check=False)
    return target, done.stderr


def digests(port, program, trace):
    """What the player writes for this trace, or what it complains of."""
    target = f"{program}.digests"
    words = port.runner.format(program=program, trace=trace, digests=target).split()
    env = {**os.environ, "WINEPREFIX": f"{os.path.dirname(program)}/wine", "WINEDEBUG": "-all"}
    done = subprocess.run(words, stdin=subprocess.DEVNULL, capture_output=True, check=False, timeout=5 * fuzzing.MOST_SECONDS, env=env)
    if done.returncode:
        return done.stderr[-300:]
    with open(target, "rb") as file:
        return file.read()


def see_cases(tally, port, cases, wanted, found):
    begin = 0
    for case, end in cases:
        tally.case, at = case, slice(begin * DIGEST, end * DIGEST)
        if not tally.see(port.name, wanted[at].hex(), found[at].hex()):
            differing = [it for it in range(begin, end) if wanted[it * DIGEST:][:DIGEST] != found[it * DIGEST:][:DIGEST]]
            print(f"  first at call {differing[0] if differing else end} of the trace")
        begin = end


class Players:
    """The player with libsfi_run, and as each port makes it with the file."""

    def __init__(self, ports, library, file, folder, tally):
        self.folder, self.tally, self.calls = folder, tally, 0
        own = Port("libsfi_run", ["gcc", "-O2"], HERE)
        self.wanted = own, compiled(own, folder, library)[0]
        self.found = []
        ready = [it for it in ports if self.is_there(it, [it.compiler[0], *[testing.PICOLIBC] * (it.compiler == BARE)])]
        with ThreadPoolExecutor(os.cpu_count()) as pool:
            for port, (program, said) in zip(ready, pool.map(lambda it: compiled(it, folder, file), ready)):
                runner = port.runner.replace(HERE, "").split()[:1]
                if tally.see(f"{port.name}: warnings", "", said) and self.is_there(port, runner, "it is compiled alone: "):
                    self.found.append((port, program))

    def is_there(self, port, wanted, so=""):
        why = testing.lacking(*wanted)
        if why:
            self.tally.skip(1, f"suygapid_run.c for {port.name}", so + why)
        return not why

    def play(self, made):
        """Makes the calls of a trace anew, by each."""
        path = os.path.join(self.folder, "trace")
        with open(path, "wb") as file:
            file.writelines(made.trace.records)
        self.calls += len(made.trace.records)
        with ThreadPoolExecutor(os.cpu_count()) as pool:
            wanted, *found = pool.map(lambda it: digests(*it, path), [self.wanted, *self.found])
        self.tally.see("calls of libsfi_run", len(made.trace.records) * DIGEST, len(wanted))
        for (port, _), one in zip(self.found, found):
            see_cases(self.tally, port, made.ends, wanted, one)
        self.tally.see("traces", 0, made.tally.wrong.total())


def main(words=None):
    parser = fuzzing.options(__doc__, 8)
    parser.add_argument("--library", default=worlds.LIBRARY)
    parser.add_argument("--file", default=FILE)
    parser.add_argument("--all", action="store_true", help="by all compilers")
    given = parser.parse_args(words)
    lacking = [] if os.path.exists(given.file) else runtime_file.missing()
    lacking += [] if fuzzing.has_gcc() else ["gcc"]
    if lacking:
        return fuzzing.all_skipped(len(due(given.all)), "suygapid_run.c", f"{' and '.join(lacking)} isn't there")
    if not os.path.exists(given.file):
        sys.exit(f"fuzz: no file {given.file}: tools/runtime_file.py makes it")
    program = measure.program_at(given.program)
    with tempfile.TemporaryDirectory() as folder:
        tally = fuzzing.Tally("calls of libsfi_run", "traces")
        static, shared = libraries.make("sfi_run", os.path.abspath(given.library), folder)
        players, library = Players(due(given.all), static, given.file, folder, tally), worlds.Calls(shared)
        made = Cases(library, program, folder)
        for case, pick in fuzzing.cases(given):
            made.live(case, pick)
            if len(made.ends) == BATCH:
                players.play(made)
                made = Cases(library, program, folder)
        if made.ends:
            players.play(made)
        print(f"{players.calls} calls of each")
    return tally.end()


if __name__ == "__main__":
    sys.exit(main())
