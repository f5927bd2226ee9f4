"""What sfi-rustc and sfi-rust-ld of examples/rust share: a Rust compiler, `core` and `alloc` for sandboxes, and the way from a program's text of
LLVM's to an image."""
import glob
import os
import re
import subprocess
from dataclasses import dataclass

from suygapid import TOOLS
from suygapid.cc.compilers import LEVELS, RESERVED_IN_WORDS, Failed, by_llc, ran, tell
from suygapid.kept import kept
from suygapid.library.sources import identity

TARGET = "riscv32imc-unknown-none-elf"
PLACE = os.path.join("lib", "rustlib", TARGET, "lib")  # where a compiler looks for the crates of a target
OPTIONS = ["--edition=2021", "-Cpanic=abort", "-Cembed-bitcode=yes", "-Ccodegen-units=1"]
# What each crate of a target stands on by name. Its functions are those of the converter's runtime.
BUILTINS = "#![feature(compiler_builtins)]\n#![compiler_builtins]\n#![no_std]\n"
WANTED = ("no rustc with its sources and an llc of its LLVM is there (Debian's packages rustc, rust-src and llvm, or others "
          "whose rustc RUSTC names)")


@dataclass(frozen=True)
class Toolchain:
    """A compiler, what it says of itself, the folder of its library's sources, and the llc of its LLVM."""
    rustc: str
    version: str
    sources: str
    llc: str

    def compiled(self, *words):
        """Runs the compiler, as one that may build its library."""
        tell(ran([self.rustc, *OPTIONS, *words])[1])

    def crate(self, folder, name, path, *words):
        """Compiles a crate that others use, into the folder."""
        self.compiled("--crate-type=rlib", f"--crate-name={name}", f"--out-dir={folder}", *words, path)


def llc_of(sysroot, version):
    """The llc of an LLVM; None where there is none."""
    major = re.search(r"LLVM version: (\d+)", version).group(1)
    for llc in (f"llc-{major}", "llc", *glob.glob(f"{sysroot}/lib/rustlib/*/bin/llc")):
        try:
            if re.search(rf"LLVM version {major}\.", ran([llc, "--version"])[0].decode()):
                return llc
        except Failed:
            pass
    return None


def toolchain():
    os.environ["RUSTC_BOOTSTRAP"] = "1"
    for rustc in [os.environ["RUSTC"]] if "RUSTC" in os.environ else ["rustc", "/usr/bin/rustc"]:
        try:
            version, sysroot = ran([rustc, "-vV"])[0].decode(), ran([rustc, "--print", "sysroot"])[0].decode().strip()
        except Failed:
            continue
        sources, llc = os.path.join(sysroot, "lib", "rustlib", "src", "rust", "library"), llc_of(sysroot, version)
        if llc and os.path.isdir(os.path.join(sources, "core", "src")):
            return Toolchain(rustc, version, sources, llc)
    raise Failed(2, WANTED)


def sysroot_of(tools):
    """The folder of `core` and `alloc` for the target, which is kept."""
    words = [f"--target={TARGET}", "-Copt-level=2", "--cap-lints=allow"]

    def make(folder):
        place = os.path.join(folder, PLACE)
        os.makedirs(place)
        builtins = os.path.join(folder, "builtins.rs")
        with open(builtins, "w", encoding="utf-8") as file:
            file.write(BUILTINS)
        for name, path in (("core", f"{tools.sources}/core/src/lib.rs"), ("compiler_builtins", builtins),
                           ("alloc", f"{tools.sources}/alloc/src/lib.rs")):
            tools.crate(place, name, path, f"--sysroot={folder}", *words)

    made_of = [tools.version, identity(tools.sources), *OPTIONS, *words, BUILTINS]
    return kept("rust", made_of, make, "compiles Rust's core and alloc")


def level_of(given):
    """The level of optimization among options."""
    return next((word for word in reversed(given) if word.startswith("-O")), "-O2")


def write_assembly(llc, middle, given, assembly):
    """Writes the assembly of a whole program, given as LLVM's text, which leaves the sandbox's registers alone."""
    level = level_of(given)
    tell(by_llc(llc, middle, [LEVELS.get(level, level)], assembly, RESERVED_IN_WORDS))


def image(assembly, given):
    """Runs sfi-cc on a program's assembly; its status."""
    return subprocess.run([f"{TOOLS}/sfi-cc", *given, assembly], check=False).returncode
