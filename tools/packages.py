#!/usr/bin/env python3
"""Makes the packages of a release, each as its people install one:

    tools/packages.py [FOLDER]     # out/packages if absent

- the wheel for Python, with the runtime's shared library in it, by bindings/python/wheel_builder.py;
- the tarball for node, with the runtime as a WebAssembly module, by `npm pack`;
- the crate for Rust, with the runtime in one file of C, which it compiles, by `cargo package`;
- the package for Debian and its like, of all that `./install` puts below a prefix, by dpkg-deb; that of a release has the compiled
  libraries of tools/converted.py and the checkers of tools/device_checkers.py, too.

The program and the libraries have to be built, and bindings/node/sfi_run.wasm made (tools/build_node.py). The same commit and the
same built files make the same packages. tools/package_trial.py installs and uses each.
"""
import dataclasses
import hashlib
import os
import pathlib
import shutil
import subprocess
import sys
import tempfile

sys.dont_write_bytecode = True
import converted
import device_checkers
import installed
import libraries
import runtime_file
import version

TOP = installed.TOP
BINDINGS = TOP / "bindings"
NODE_MODULE = BINDINGS / "node" / "sfi_run.wasm"
# The folders of which a release hands on what it made: what else may lie there isn't packed.
HANDED_ON = (f"{converted.MADE}/", f"{device_checkers.FOLDER}/")
# Where Debian has what others have elsewhere.
OF_DEBIAN = {"share/zsh/site-functions/": "share/zsh/vendor-completions/"}
CONTROL = """\
Package: {name}
Version: {version}
Architecture: amd64
Maintainer: {maintainer}
Installed-Size: {size}
Depends: libc6 (>= 2.34), python3 (>= 3.9)
Recommends: gcc-riscv64-unknown-elf, gdb-multiarch
Section: devel
Priority: optional
Description: checker and runtime for sandboxed RISC-V code
 Suygapid lets a host run machine code that it doesn't trust. A proved checker
 accepts or refuses an image of sandboxes; what is accepted can't leave its
 sandbox. This has the program sfi, tools for C, libraries with headers, files
 for pkg-config and CMake, bindings, manual pages and completions for shells.
"""
# Run as root, Python leaves what it compiles beside the modules of the bindings, which dpkg doesn't know.
LEAVING = """\
#!/bin/sh
find /usr/share/suygapid -depth -name __pycache__ -exec rm -r {} +
"""


class Failed(Exception):
    """No package is made, for this reason."""


def run(*words, folder, **more):
    """What a command printed on standard output."""
    try:
        done = subprocess.run(words, cwd=folder, capture_output=True, text=True, check=False, env={**os.environ, **more})
    except FileNotFoundError as error:
        raise Failed(f"{words[0]} isn't there") from error
    if done.returncode:
        raise Failed(f"{words[0]} failed: {(done.stderr or done.stdout).strip()}")
    return done.stdout


def wheel(folder):
    """The path of the wheel for Python."""
    named = {f"{it.upper()}_LIBRARY": libraries.make(it)[1] for it in libraries.HEADERS}
    words = "import sys, wheel_builder; print(wheel_builder.build_wheel(sys.argv[1]))"
    return folder / run(sys.executable, "-c", words, folder, folder=BINDINGS / "python", **named).strip()


def tarball(folder):
    """The path of the tarball for node."""
    return folder / run("npm", "pack", "--offline", "--silent", "--pack-destination", folder, folder=BINDINGS / "node").strip()


def crate(folder):
    """The path of the crate for Rust."""
    with tempfile.TemporaryDirectory() as made:
        room = pathlib.Path(made)
        source = shutil.copytree(BINDINGS / "rust", room / "crate", ignore=shutil.ignore_patterns("target"))
        (source / "c").mkdir()
        shutil.copyfile(runtime_file.make(), source / "c" / "suygapid_run.c")
        run("cargo", "package", "--offline", "--locked", "--no-verify", "--quiet", "--target-dir", room / "target", folder=source)
        packed = room / "target" / "package" / f"{version.NAME}-{version.version()}.crate"
        return shutil.copyfile(packed, folder / packed.name)


def is_handed_on(item):
    return item.place.startswith(tuple(f"{installed.SHARE}/{it}" for it in HANDED_ON))


def debian_item(item):
    """An item of an installation where Debian has it."""
    for usual, other in OF_DEBIAN.items():
        if item.place.startswith(usual):
            return dataclasses.replace(item, place=other + item.place.removeprefix(usual))
    return item


def of_commit(what):
    """What git tells of the commit that is checked out."""
    return run("git", "log", "-1", f"--format={what}", folder=TOP).strip()


def put_control(room):
    """Writes what dpkg reads of the package, of which all other files are there."""
    files = sorted(it for it in room.rglob("*") if it.is_file() and not it.is_symlink())
    sums = "".join(f"{hashlib.md5(it.read_bytes()).hexdigest()}  {it.relative_to(room)}\n" for it in files)
    size = sum(-(-it.stat().st_size // 1024) for it in files)
    control = room / "DEBIAN"
    control.mkdir()
    told = CONTROL.format(name=version.NAME, version=version.version(), maintainer=of_commit("%an <%ae>"), size=size)
    for name, text in (("control", told), ("md5sums", sums), ("triggers", "activate-noawait ldconfig\n"), ("prerm", LEAVING)):
        (control / name).write_text(text, encoding="utf-8")
        (control / name).chmod(0o755 if text is LEAVING else 0o644)


def put_more(folder, files):
    """Writes files, of which the bytes are given by their paths."""
    for path, data in files.items():
        (folder / path).parent.mkdir(parents=True, exist_ok=True)
        (folder / path).write_bytes(data)
        (folder / path).chmod(0o644)


def debian(folder, compiled=None):
    """The path of the package for Debian. `compiled` are the bytes of files that a release has beside the tools, by their paths."""
    with tempfile.TemporaryDirectory() as made:
        room = pathlib.Path(made) / "package"
        for item in (debian_item(it) for it in installed.items() if not is_handed_on(it)):
            (room / "usr" / item.place).parent.mkdir(parents=True, exist_ok=True)
            item.put(room / "usr")
        put_more(room / "usr" / installed.SHARE, compiled or {})
        put_control(room)
        for it in (room, *room.rglob("*")):
            if it.is_dir():
                it.chmod(0o755)
        target = folder / f"{version.NAME}_{version.version()}_amd64.deb"
        run("dpkg-deb", "--root-owner-group", "--build", room, target, folder=folder, SOURCE_DATE_EPOCH=of_commit("%ct"))
        return target


# What makes a package, and the files and commands of which and by which it does.
LIBRARIES = [pathlib.Path(libraries.built(it)) for it in libraries.HEADERS]
MAKERS = {wheel: LIBRARIES, tarball: [NODE_MODULE, "npm"], crate: ["cargo"], debian: [*installed.built(), "dpkg-deb", "git"]}


def missing(maker):
    """What isn't there that a package is made of or by."""
    lacking = [it for it in MAKERS[maker] if not (it.is_file() if isinstance(it, pathlib.Path) else shutil.which(it))]
    return [str(it).removeprefix(f"{TOP}/") for it in lacking + (runtime_file.missing() if maker is crate else [])]


def make(folder, compiled=None):
    """The paths of all packages, which are made in the folder. `compiled` is as of `debian`."""
    lacking = [it for maker in MAKERS for it in missing(maker)]
    if lacking:
        raise Failed(f"{' and '.join(dict.fromkeys(lacking))} isn't there")
    return [wheel(folder), tarball(folder), crate(folder), debian(folder, compiled)]


def main(words):
    if len(words) > 1:
        sys.exit("usage: tools/packages.py [FOLDER]")
    folder = pathlib.Path(words[0] if words else TOP / "out" / "packages").absolute()
    folder.mkdir(parents=True, exist_ok=True)
    try:
        print(*make(folder), sep="\n")
    except Failed as failed:
        sys.exit(f"packages.py: {failed}")


if __name__ == "__main__":
    main(sys.argv[1:])
