#!/usr/bin/env python3
"""Tries a release as people do who have Debian, and nothing of this repository or its toolchain. By hand, for a release: the gate
tries less, by tools/release_trial.py and tools/package_trial.py.

    tools/newcomer.py RELEASE [FOLDER [WAY]..]   # RELEASE has what tools/release.py made; FOLDER keeps Debian, out/debian if absent

Each way to get the release has a root of its own, which debootstrap made, and there a user without rights and network. What the
user does stands in README.md, docs/C.md, docs/EMBEDDING.md, headers and the bindings' README.md of the release, from which the commands
and programs are taken as they stand, and what they print; newcomer_hosts.py has what stands around single lines. It takes the rights of root, debootstrap, and for the packages of Debian
that those documents ask for a network. The last line is `N passed, M failed`, or `0 passed, 0 failed, 1 skipped`.
"""
import os
import pathlib
import re
import shutil
import subprocess
import sys
import tarfile
import tempfile
from dataclasses import dataclass, field

sys.dont_write_bytecode = True
import evidence
import newcomer_hosts
import release_trial
import version

TOP = pathlib.Path(__file__).resolve().parent.parent
BOOKWORM, TRIXIE = "bookworm", "trixie"  # the latter has the node that README.md asks for
HOME, ARCHIVES = "/home/new", "var/cache/apt/archives"
PATH = "/usr/local/sbin:/usr/local/bin:/usr/sbin:/usr/bin:/sbin:/bin"
SHARED = 'mount -t tmpfs -o mode=1777 none /dev/shm && exec "$@"'  # which processes of Python share, as on any Debian
# Begins the loopback of a network that has nothing else, and goes on as the words say.
LOOPBACK = "import fcntl, os, socket, struct, sys; fcntl.ioctl(socket.socket(), 0x8914, struct.pack('16sh14x', b'lo', 1)); os.execvp(sys.argv[1], sys.argv[1:])"
UNPACKED = f"{version.NAME}-{version.version()}-x86_64-linux"
EXITED = " || [ $? = 105 ]"  # the status of the program that README.md runs last
TOLD = " || [ $? = 3 ]"  # the status after help and version
GREETING = "hello 42"  # what each host of docs/EMBEDDING.md prints
CMAKE = 'cmake_minimum_required(VERSION 3.16)\nproject(host C)\nfind_package(suygapid REQUIRED)\nadd_executable(host host.c)\n' \
        "target_link_libraries(host suygapid::sfi_run)\n"

NATIVE = "crates/sfi_run/out/linked/libsfi_run_native"
HANDED_ON = ("plugin.image", "busy.image", f"{NATIVE}.a", f"{NATIVE}.so")  # by the first way to those that have no compiler for sandboxes
LIMITS, SNAPSHOTS, VIEWS = (f"crates/{it}.h" for it in ("sfi_run/include/sfi_run_limit", "sfi_run/include/sfi_run_snapshot", "sfi_native/include/sfi_run_native"))
# What bash offers behind `sfi ch`.
COMPLETED = """bash -c '. /usr/share/bash-completion/completions/sfi && COMP_WORDS=(sfi ch) COMP_CWORD=1 && _sfi && echo "${COMPREPLY[@]}"'"""


class Fault(Exception):
    """What a newcomer meets that isn't as the documents say."""


@dataclass(frozen=True)
class Step:
    """What is typed, what is printed then, and whether root types it, who has a network."""
    words: str
    wanted: tuple = ()
    by_root: bool = False


@dataclass
class Way:
    """A way to get the release: Debian's packages that are there before, the files that are at hand by their globs, and what is done."""
    packages: tuple
    files: tuple
    steps: list = field(default_factory=list)
    suite: str = BOOKWORM


class Documents:
    """The documents of a release, below a folder, and the blocks of code in them."""

    def __init__(self, top):
        self.top = top

    def block(self, document, words):
        """The first block of a document in which these words stand."""
        text = (self.top / document).read_text(encoding="utf-8")
        found = next((it for it in re.findall(r"^```\w*\n(.*?)^```$", text, re.DOTALL | re.MULTILINE) if words in it), None)
        if found is None:
            raise Fault(f"{document} has no code with {words!r}")
        return found

    def line(self, document, words):
        """A line of such a block."""
        return next(it for it in self.block(document, words).splitlines() if words in it)

    def prose(self, document, form):
        """The groups of the first words of a document that have this form, whatever parts its lines."""
        found = re.search(form, " ".join((self.top / document).read_text(encoding="utf-8").split()))
        if found is None:
            raise Fault(f"{document} doesn't say {form}")
        return found

    def host(self, text, *documents):
        """A host of newcomer_hosts.py, with the lines that these documents, or headers in their comments, have for its words."""
        told = [line.removeprefix(" *").strip() for it in documents for line in (self.top / it).read_text(encoding="utf-8").splitlines()]

        def line(found):
            for it in told:
                if it.startswith(found[1]):
                    return it
            raise Fault(f"{' and '.join(documents)} have no line that begins with {found[1]!r}")
        return re.sub(r"@(.+)@", line, text)


def installed(words):
    """Commands of a checkout or a release as they are typed where it is installed."""
    return re.sub(r"(?<![\w~])(\./|tools/)(?=sfi)", "", words)


def written(name, text):
    """The words that write a file."""
    return f"cat > {name} <<'THE END'\n{text}THE END\n"


# ---- what is done


def tour(documents):
    """README.md's first program, where `./sfi` is. Its comments have what is printed."""
    block = documents.block("README.md", "./sfi exec hi.hex")
    return Step(re.sub(r"\s+#[^\n]*\s*$", EXITED, block),
                ("accepted sandboxes=1 bundles=16\n", "sandbox=0 exit=105 steps=19 out=4869\n", "Hi"))


def programs_in_c(documents):
    """The C programs of docs/C.md, of README.md, and one with a trap."""
    hello, wrong = documents.block("docs/C.md", "return 105;"), documents.block("docs/C.md", "volatile int *volatile nowhere")
    return [Step(written("hello.c", hello) + documents.line("docs/C.md", "hello.c > hello.hex && ./sfi run"), ("sandbox=0 exit=105 steps=31 out=4869\n",)),
            Step(documents.line("docs/C.md", "examples/c/hello.c > hello.hex"), ("Hello, world\n",)),
            Step(written("wrong.c", wrong) + documents.line("docs/C.md", "-g -o wrong.elf wrong.c && ") + " || true",
                 (documents.block("docs/C.md", " trap=Store").splitlines()[0], "main, wrong.c:2"))]


def traces(documents):
    """Where steps go and an image, as docs/C.md has them drawn, and a linked program step by step."""
    drawn = documents.block("docs/C.md", "sfi-trace --profile function")
    return [Step(drawn + "ls hello.speedscope.json\ngrep -l '</svg>' hello.svg map.svg",
                 ("share  function\n", "  main  hello.c:", "hello.speedscope.json\n", "hello.svg\nmap.svg\n")),
            Step("tools/sfi-trace wrong.elf", ("# wrong.c:2\n", documents.block("docs/C.md", " trap=Store").splitlines()[0]))]


def plugin(documents):
    """The plug-in of docs/EMBEDDING.md."""
    source = documents.block("docs/EMBEDDING.md", "return a + b;")
    return Step(written("plugin.c", source) + documents.line("docs/EMBEDDING.md", "--export add --import print"))


def busy(documents):
    """The plug-in that never ends."""
    words = documents.line("docs/EMBEDDING.md", "--export add --import print")
    return Step(written("busy.c", newcomer_hosts.PLUGIN) + words.replace("add --import print plugin.c -o plugin", "where,first,spin busy.c -o busy"))


def host_in_c(documents, words):
    return Step(written("host.c", documents.block("docs/EMBEDDING.md", "#include \"sfi_run_serve.h\"")) + words, (GREETING,))


def busy_in_c(documents, words):
    """A host of it, linked with the library for native code by the words for host.c."""
    text = documents.host(newcomer_hosts.C, LIMITS, SNAPSHOTS, VIEWS)
    return Step(written("busy_host.c", text) + words.replace("host", "busy_host").replace("--libs sfi_run)", "--libs sfi_run_native)"),
                (newcomer_hosts.ENDED,))


def has_evidence(documents):
    return (documents.top / evidence.RELEASED).is_file()


def by_tar(documents):
    take = documents.block("README.md", "tar xf suygapid-*.tar.gz")
    inside = f"cd {UNPACKED} && "
    host = documents.block("docs/EMBEDDING.md", "pkg-config --cflags --libs sfi_run")
    steps = [Step(take, (release_trial.ACCEPTED, "installed "))]
    typed = [tour(documents), *programs_in_c(documents), *traces(documents), plugin(documents), host_in_c(documents, host), busy(documents),
             busy_in_c(documents, host)]
    steps += [Step(inside + it.words, it.wanted) for it in typed]
    named = documents.prose("docs/EMBEDDING.md", r"`([\w/]+/suygapid_run\.c)` of a release")
    in_one_file = f"gcc -O2 -Icrates/sfi_run/include -Icrates/sfi_c/include host.c {named[1]} -o host"
    steps += [Step(f"{inside}{in_one_file} && ./host", (GREETING,)),
              Step(f"{inside}tools/sfi-cc --memory 256K -o big.image hello.c && ./sfi exec big.image{EXITED}", ("Hi",)),
              Step(f"{inside}./sfi --version{TOLD}", (f"sfi {version.version()}", "commit=", "logic=")),
              Step(f"{inside}cc -O1 -DSUYGAPID_CHECK_MAIN crates/sfi_c/out/suygapid_check.c -o check && ./check < plugin.image",
                   ("accepted sandboxes=1",)),
              *([Step(inside + documents.prose("docs/THEOREM.md", f"`([^`]* {evidence.RELEASED})`")[1], ("\nyes\n",))] if has_evidence(documents) else []),
              Step("~/.local/bin/sfi-check " + f"{UNPACKED}/plugin.image", ("accepted sandboxes=1",)),
              Step(f"{inside}./install --remove ~/.local && ! ls ~/.local/bin", ("removed ",))]
    return Way(("python3", "gcc", "libc6-dev", "pkg-config", "gcc-riscv64-unknown-elf"), (f"{UNPACKED}.tar.gz*",), steps)


def by_debian(documents):
    install = documents.line("README.md", "sudo apt install").removeprefix("sudo ").replace("apt install", "apt install -qq -y")
    build = "cmake -S . -B build && cmake --build build && build/host"
    flags = "gcc host.c -o host $(pkg-config --cflags --libs sfi_run) && ./host"
    typed = [tour(documents), *programs_in_c(documents), *traces(documents), plugin(documents), busy(documents)]
    programs = [Step(installed(it.words), it.wanted) for it in typed]
    return Way(("gcc", "libc6-dev", "pkg-config", "cmake"), ("*.deb",), [
        Step(install, (), True), Step("cp -r /usr/share/doc/suygapid/examples ."), *programs, host_in_c(documents, flags), busy_in_c(documents, flags),
        Step(written("CMakeLists.txt", CMAKE) + build, (GREETING,)), Step(f"sfi --version{TOLD}", (f"sfi {version.version()}\ncommit=", "logic=")), Step("ls -l /usr/share/man/man1/sfi-cc.1"),
        Step(COMPLETED, ("check\n",)),
        Step("sfi-gdb wrong.elf -batch -ex 'break clear' -ex continue -ex backtrace", ("clear", "main")),
        Step("apt remove -qq -y suygapid && ! ls /usr/share/suygapid", ("Removing",), True)])


def by_pip(documents):
    source = documents.block("docs/EMBEDDING.md", "from sfi_run.names import Plugin\n\ndef say")
    install = documents.line("README.md", "pip install")
    cluster = "mkdir -p cluster/images && cp *.whl cluster && cp *.image cluster/images && cd cluster\n"
    return Way(("python3-venv", "python3-distributed"), ("*.whl", *map(os.path.basename, HANDED_ON)), [
        Step(f"python3 -m venv mine && . mine/bin/activate && {install}", ("",)),
        Step(written("host.py", source) + "mine/bin/python host.py", (GREETING,)),
        Step("mine/bin/sfi-check plugin.image && mine/bin/sfi-corpus check plugin.image", ("accepted sandboxes=1", "files=1: 1 accepted")),
        Step(written("busy.py", documents.host(newcomer_hosts.PYTHON, "bindings/python/README.md"))
             + f"SFI_RUN_LIBRARY=$PWD/{os.path.basename(NATIVE)}.so mine/bin/python busy.py", (newcomer_hosts.ENDED,)),
        Step(cluster + documents.block("docs/EMBEDDING.md", "dask scheduler"), ("files=2: 2 accepted", "2 judged anew")),
        Step("mine/bin/sfi-check --version", (f"version={version.version()} commit=", "logic="))])


def by_npm(documents):
    source = documents.block("docs/EMBEDDING.md", 'from "suygapid"')
    return Way(("nodejs", "npm"), ("*.tgz", "plugin.image"), [
        Step(documents.line("README.md", "npm install")), Step(written("host.mjs", source) + "node host.mjs", (GREETING,))], TRIXIE)


def by_cargo(documents):
    source = documents.block("docs/EMBEDDING.md", "use sfi_run::{names, World};")
    add = documents.line("README.md", "cargo add").partition("#")
    begin = f"cargo init -q --name host && {add[0]} && {add[2].partition(': ')[2]}"
    native = f"SFI_RUN_LIBRARY=$PWD/{os.path.basename(NATIVE)}.a"
    return Way(("cargo",), ("*.crate", *map(os.path.basename, HANDED_ON)), [
        Step(begin), Step(written("src/main.rs", source) + "cargo run -q --offline", (GREETING,)),
        Step(written("src/main.rs", documents.host(newcomer_hosts.RUST, "bindings/rust/README.md")) + f"{native} cargo run -q --offline",
             (newcomer_hosts.ENDED,))])


WAYS = {"tar": by_tar, "apt": by_debian, "pip": by_pip, "npm": by_npm, "cargo": by_cargo}


# ---- Debian


def debian(folder, suite):
    """The root of a fresh Debian, which is made once."""
    root, done = folder / suite, folder / f"{suite}.done"
    if not done.exists():
        shutil.rmtree(root, ignore_errors=True)
        folder.mkdir(parents=True, exist_ok=True)
        subprocess.run(["debootstrap", "--variant=minbase", suite, root], check=True, stdout=subprocess.DEVNULL)
        done.touch()
    return root


def link_new(source, target):
    """Has a folder have each of Debian's packages that another one has, so that none is fetched twice."""
    target.mkdir(parents=True, exist_ok=True)
    for path in source.glob("*.deb"):
        if not (target / path.name).exists():
            os.link(path, target / path.name)


class Root:
    """A Debian of its own, in a namespace of its own, so that nothing of it stays mounted or runs on."""

    def __init__(self, folder, name, way):
        self.top = folder / name
        shutil.rmtree(self.top, ignore_errors=True)
        subprocess.run(["cp", "-a", "--reflink=auto", debian(folder, way.suite), self.top], check=True)
        (self.top / "etc" / "dpkg" / "dpkg.cfg.d" / "trial").write_text("force-unsafe-io\n", encoding="ascii")  # it waits for no disk
        link_new(folder / "packages", self.top / ARCHIVES)
        self.run(Step(f"useradd -m -d {HOME} new && apt-get update -qq && apt-get install -qq -y {' '.join(way.packages)}", (), True))
        link_new(self.top / ARCHIVES, folder / "packages")

    def run(self, step):
        """What a step prints. A user's has no network."""
        apart = [] if step.by_root else ["unshare", "--net", sys.executable, "-c", LOOPBACK]
        words = [*apart, "unshare", "--mount", "--pid", "--fork", f"--root={self.top}", "--mount-proc=/proc", "sh", "-c", SHARED, "sh", "env", "-i",
                 f"PATH={PATH}", "DEBIAN_FRONTEND=noninteractive", "LC_ALL=C.UTF-8", "TERM=dumb"]
        words += ["HOME=/root"] if step.by_root else ["runuser", "-u", "new", "--", "env", f"HOME={HOME}"]
        folder = HOME if (self.top / HOME[1:]).is_dir() else "/"
        done = subprocess.run([*words, "sh", "-e", "-c", f"cd {folder}\n{step.words}"], stdin=subprocess.DEVNULL, stdout=subprocess.PIPE,
                              stderr=subprocess.STDOUT, text=True, errors="replace", check=False)
        lacking = [it for it in step.wanted if it not in done.stdout]
        if done.returncode or lacking:
            why = f"status {done.returncode}" if done.returncode else f"{lacking[0].strip()!r} isn't printed"
            raise Fault(f"{why}\n{step.words}\n--\n{done.stdout[-3000:]}")
        return done.stdout


def go(name, way, release, folder):
    """Goes a way. What the first one hands on is kept beside the roots."""
    root = Root(folder, name, way)
    home = root.top / HOME[1:]
    for path in [path for it in way.files for path in (*release.glob(it), *folder.glob(it))]:
        shutil.copy(path, home)
    for step in way.steps:
        print(f"{name}: {step.words.strip().splitlines()[-1]}", flush=True)
        root.run(step)
    for path in [path for it in HANDED_ON for path in home.glob(f"*/{it}")]:
        shutil.copy(path, folder)
    shutil.rmtree(root.top)


def has_gone(name, way, documents, release, folder):
    """Whether a way leads where it has to, of which a fault is printed."""
    try:
        go(name, way(documents), release, folder)
    except Fault as fault:
        print(f"{name}: {fault}", flush=True)
        return False
    return True


def missing():
    """Why none of this can be tried, or nothing."""
    if os.geteuid():
        return "this isn't root"
    lacking = [it for it in ("debootstrap", "unshare", "cp") if not shutil.which(it)]
    return f"{' and '.join(lacking)} isn't there" if lacking else ""


def main(words):
    if not words or not set(words[2:]) <= WAYS.keys():
        sys.exit(f"usage: tools/newcomer.py RELEASE [FOLDER [{' | '.join(WAYS)}]..]")
    why = missing()
    if why:
        print(f"skipped: newcomer.py: {why}\n0 passed, 0 failed, 1 skipped")
        return
    release, folder = pathlib.Path(words[0]).absolute(), pathlib.Path(words[1] if len(words) > 1 else TOP / "out" / "debian").absolute()
    ways = {name: way for name, way in WAYS.items() if name in words[2:] or not words[2:]}
    with tempfile.TemporaryDirectory() as room, tarfile.open(release / f"{UNPACKED}.tar.gz") as tar:
        tar.extractall(room, filter="data")
        failed = [name for name, way in ways.items() if not has_gone(name, way, Documents(pathlib.Path(room) / UNPACKED), release, folder)]
    print(f"{len(ways) - len(failed)} passed, {len(failed)} failed")
    sys.exit(1 if failed else 0)


if __name__ == "__main__":
    main(sys.argv[1:])
