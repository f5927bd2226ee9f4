"""Tries packages as those who install them do: each in an empty folder, with nothing of this repository, of its toolchain or from
a network. What is installed has to say of the smallest image, which is 64 times ebreak, by which cause it traps."""
import contextlib
import functools
import hashlib
import os
import pathlib
import shutil
import subprocess
import sys
import tarfile
import tempfile
from concurrent.futures import ThreadPoolExecutor

import installed
import libraries
import release_trial
import version

IMAGE = bytes.fromhex((installed.TOP / release_trial.SMALLEST).read_text(encoding="ascii"))
JUDGED = f"{release_trial.ACCEPTED.strip()} sha256={hashlib.sha256(IMAGE).hexdigest()} version={version.version()} commit="
COMPLETIONS = ("bash-completion/completions/sfi", "zsh/vendor-completions/_sfi", "fish/vendor_completions.d/sfi.fish")
PYTHON = """
import importlib.metadata, pathlib, sfi_check, sfi_run, sys
assert (pathlib.Path(sfi_run.__file__).parent / "py.typed").is_file(), "py.typed isn't there"
assert {importlib.metadata.version("suygapid")} == {sfi_run.__version__, sfi_check.__version__}, "the versions differ"
print(sfi_run.World(sys.stdin.buffer.read())[0].turn(5).cause.name)
"""
NODE = """
import { readFileSync } from "node:fs";
import { load } from "suygapid";
const about = JSON.parse(readFileSync("node_modules/suygapid/package.json"));
readFileSync(`node_modules/suygapid/${about.exports["."].types}`);
console.log((await load(readFileSync(0))).sandboxes[0].turn(5).cause);
"""
RUST = """
use std::io::Read;

fn main() -> Result<(), Box<dyn std::error::Error>> {
    let mut image = Vec::new();
    std::io::stdin().read_to_end(&mut image)?;
    let mut world = sfi_run::World::load(&image)?;
    println!("{:?}", world.sandbox(0).unwrap().turn(5));
    Ok(())
}
"""
CMAKE = """\
cmake_minimum_required(VERSION 3.16)
project(host C)
find_package({name} {version} CONFIG REQUIRED)
foreach(kind IN ITEMS sfi_run sfi_run_static)
  add_executable(${{kind}} host.c)
  target_link_libraries(${{kind}} {name}::${{kind}})
endforeach()
"""


class Fault(Exception):
    """What is wrong with a package."""


def environment(room, **more):
    """The variables of an environment that knows nothing of this repository."""
    kept = {name: value for name, value in os.environ.items() if not name.startswith(("SFI", "PYTHON", "CMAKE", "PKG_CONFIG", "npm_"))}
    return {**kept, "PYTHONDONTWRITEBYTECODE": "1", "CARGO_HOME": f"{room}/cargo", "npm_config_cache": f"{room}/npm", **more}


def run(room, *words, given=b"", **more):
    """What a command prints on standard output."""
    try:
        done = subprocess.run(words, cwd=room, input=given, capture_output=True, check=False, env=environment(room, **more))
    except FileNotFoundError as error:
        raise Fault(f"{pathlib.Path(words[0]).name} isn't there") from error
    if done.returncode:
        said = (done.stderr or done.stdout).decode(errors="replace").strip().splitlines()
        raise Fault(f"{pathlib.Path(words[0]).name} fails: {said[-1] if said else f'status {done.returncode}'}")
    return done.stdout.decode(errors="replace")


def hold(said, wanted, what):
    if wanted not in said:
        raise Fault(f"{what} says {said.strip()!r}, not {wanted!r}")


# ---- the trials, each in the empty folder `room`

@functools.cache
def pip():
    """The command of a pip that installs into other environments: this Python's own, or else of one that is made with it, which takes
    seconds and goes as this process ends."""
    with tempfile.TemporaryDirectory() as room:
        with contextlib.suppress(Fault):
            run(room, sys.executable, "-m", "pip", "--python", sys.executable, "--version")
            return [sys.executable, "-m", "pip"], None
    made = tempfile.TemporaryDirectory()
    run(made.name, sys.executable, "-m", "venv", "mine")
    return [f"{made.name}/mine/bin/pip"], made


def wheel(path, room):
    run(room, sys.executable, "-m", "venv", "--without-pip", "mine")
    words = ["--python", room / "mine" / "bin" / "python", "install", "--quiet", "--no-index", "--disable-pip-version-check", path]
    run(room, *pip()[0], *words)
    hold(run(room, room / "mine" / "bin" / "python", "-c", PYTHON, given=IMAGE, HOME=str(room)), "BREAK", "the package for Python")
    (room / "smallest.image").write_bytes(IMAGE)
    hold(run(room, room / "mine" / "bin" / "sfi-check", "smallest.image", HOME=str(room)), JUDGED, "its sfi-check")
    hold(run(room, room / "mine" / "bin" / "sfi-corpus", "check", "smallest.image", HOME=str(room)), "files=1: 1 accepted", "its sfi-corpus")


def tarball(path, room):
    (room / "package.json").write_text("{}", encoding="utf-8")
    run(room, "npm", "install", "--offline", "--no-audit", "--no-fund", path)
    hold(run(room, "node", "--input-type=module", "-e", NODE, given=IMAGE), "Break", "the package for node")


def crate(path, room):
    with tarfile.open(path) as tar:
        tar.extractall(room, filter="data")
    name = path.name.removesuffix(".crate")
    about = f'[package]\nname = "host"\nversion = "1.0.0"\nedition = "2021"\n[dependencies]\n{version.NAME} = {{ path = "{name}" }}\n'
    (room / "src").mkdir()
    (room / "Cargo.toml").write_text(about, encoding="utf-8")
    (room / "src" / "main.rs").write_text(RUST, encoding="utf-8")
    hold(run(room, "cargo", "run", "--quiet", "--offline", given=IMAGE), "Break", "the crate")


def debian(path, room):
    hold(run(room, "dpkg-deb", "--field", path, "Package", "Version"), version.version(), "the package for Debian")
    run(room, "dpkg-deb", "--extract", path, room)
    unpacked(room)


def unpacked(room):
    """Tries what the package for Debian has, which is below `room`."""
    for step in STEPS:
        step(room, room / "usr")


def by_program(room, usr):
    hold(run(room, usr / "bin" / "sfi", "check", given=IMAGE), release_trial.ACCEPTED, "the program")


def by_tools(room, usr):
    with ThreadPoolExecutor() as pool:
        for tool, told in zip(installed.TOOLS, pool.map(lambda tool: run(room, usr / "bin" / tool, "--version"), installed.TOOLS)):
            hold(told, f"{tool} version={version.version()} commit=", tool)


def by_places(_room, usr):
    for place in (*(f"man/man1/{page}" for page in installed.PAGES), *COMPLETIONS):
        if not (usr / "share" / place).is_file():
            raise Fault(f"usr/share/{place} isn't there")


def by_package(room, usr):
    """A host that pkg-config's words compile and link, with each runtime that is there."""
    others = [libraries.NATIVE] if (usr / "lib" / f"lib{libraries.NATIVE}.so").exists() else []
    for name in ("sfi_run", *others):
        (room / "host.c").write_text(release_trial.HOST.replace("sfi_run.h", f"{name}.h"), encoding="utf-8")
        words = run(room, "pkg-config", "--cflags", "--libs", name, PKG_CONFIG_PATH=f"{usr}/lib/pkgconfig").split()
        run(room, "gcc", "-Wall", "-Wextra", "-Werror", "host.c", "-o", "host", *words, f"-Wl,-rpath,{usr}/lib")
        hold(run(room, room / "host", given=IMAGE), "Break", f"a host by pkg-config, with {name},")


def by_cmake(room, usr):
    """The same host as CMake links it with each library."""
    (room / "host.c").write_text(release_trial.HOST, encoding="utf-8")
    (room / "CMakeLists.txt").write_text(CMAKE.format(name=version.NAME, version=version.version()), encoding="utf-8")
    run(room, "cmake", "-S", ".", "-B", "build", f"-DCMAKE_PREFIX_PATH={usr}")
    run(room, "cmake", "--build", "build")
    for name in ("sfi_run", "sfi_run_static"):
        hold(run(room, room / "build" / name, given=IMAGE), "Break", f"a host by CMake, with {name},")


STEPS = (by_program, by_tools, by_places, by_package, by_cmake)
TRIALS = {".whl": (wheel, ()), ".tgz": (tarball, ("npm", "node")), ".crate": (crate, ("cargo", "cc", "ar")),
          ".deb": (debian, ("dpkg-deb", "pkg-config", "gcc", "cmake"))}


def missing(ending):
    """The commands by which a package with this ending is tried and that aren't there."""
    return [it for it in TRIALS[ending][1] if not shutil.which(it)]


def faults(path):
    """What is wrong with a package, or with this machine, on which it can't be tried."""
    lacking = missing(path.suffix)
    if lacking:
        return [f"{' and '.join(lacking)} isn't there, by which {path.name} is tried"]
    with tempfile.TemporaryDirectory() as room:
        try:
            TRIALS[path.suffix][0](path, pathlib.Path(room))
        except Fault as fault:
            return [f"{path.name}: {fault}"]
    return []
