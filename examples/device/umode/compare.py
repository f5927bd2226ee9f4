#!/usr/bin/env python3
"""The instructions on QEMU's `virt` of the same programs in U-mode, closed in by physical memory protection alone,
and beside the host in M-mode, in each format; and on three chips those of the host at a call. Prints the table of
docs/DEVICE.md.

    examples/device/umode/compare.py [SFI]      # SFI is the program; ./sfi at the top if absent

Wants what examples/device wants, and has `make` compile examples/c first. Each answer has to be the same in all of them.
"""
import os
import pathlib
import re
import subprocess
import sys
import tempfile

HERE = pathlib.Path(__file__).resolve().parent
TOP = HERE.parents[2]
sys.dont_write_bytecode = True
sys.path.insert(0, os.path.join(TOP, "tools"))
from suygapid.trials import compiled

SFI = os.path.abspath(sys.argv[1]) if len(sys.argv) > 1 else str(TOP / "sfi")
CODE, DATA, DATA_SIZE = 0x80100000, 0x80408000, 1 << 15
PROGRAMS = ("crc32", "sha256", "wordcount", "stack", "matrix", "regex")  # whose data fit
CHIPS = {"virt": (0x80100000, 0x80401000), "sifive_e": (0x20500000, 0x80000000),  # FLASH_CODE and CHIP_RAM of chip.h
         "opentitan": (0x20020000, 0x10000000)}
IN_USER_MODE = "../umode/umode.c ../umode/count.c"
IN_ONE_MODE = "main.c ../umode/count.c"


def at_the_chip():
    """Has plain code linked where the chip has memory."""
    compiled.SCRIPT = compiled.SCRIPT.replace("0x1000000", hex(CODE)).replace("0x1800000", hex(DATA))
    compiled.GATES = [(CODE + compiled.BUNDLE * service, service) for service in range(3)]
    compiled.CODE, compiled.DATA, compiled.DATA_SIZE = CODE, DATA, DATA_SIZE


def run(image, main, flags, folder, given="", chip="virt"):
    """The lines of an image's run."""
    command = [TOP / "examples/device/mcu/run.sh", "--chip", chip, "--unchecked", "--steps", "--turn", "600000000",
               "--input", given]
    out = os.path.join(folder, "user" if flags else "one")
    done = subprocess.run(command, input=image.encode(), stdout=subprocess.PIPE, check=True,
                          env={**os.environ, "MAIN": main, "HOST_FLAGS": flags, "OUT": out})
    return done.stdout.decode().splitlines()


def in_user_mode(image, folder, given="", chip="virt"):
    return run(image, IN_USER_MODE, "-DSFI_DEVICE_PLUGINS_IN_U_MODE", folder, given, chip)


def built(text, chip):
    """The image of a source text of sandboxes with 256 bytes of data."""
    code, data = CHIPS[chip]
    places = [f"{code + 0x1000 * number:x}:{data + 0x2100 * number:x}" for number in range(text.count(".sandbox"))]
    words = [word for place in places for word in ("--at", place)]
    return subprocess.run([SFI, "build", *words], input=f".format words\n{text}".encode(),
                          stdout=subprocess.PIPE, check=True).stdout.decode()


def compiled_image(assembly, image_format):
    """The image of a compiled program."""
    command = [compiled.SFI_CC, "--format", image_format, "--data", str(DATA_SIZE), "--at", f"{CODE:x}:{DATA:x}", assembly]
    return subprocess.run(command, stdout=subprocess.PIPE, check=True).stdout.decode()


def row(name, folder):
    given = compiled.digits_of_case(name)
    build = pathlib.Path(compiled.EXAMPLES) / "build"
    code, data = compiled.linked(str(build / f"{name}.asm"), folder)
    steps, answer = compiled.answer(in_user_mode(compiled.image(code, data).hex(), folder, given)[0])
    ratios = []
    for image_format in ("1", "2", "words"):
        assembly = build / ("words" if image_format == "words" else "") / f"{name}.asm"
        more, same = compiled.answer(run(compiled_image(assembly, image_format), IN_ONE_MODE, "", folder, given)[0])
        if same != answer:
            raise SystemExit(f"compare.py: {name}, format {image_format}: {same}, in U-mode {answer}")
        ratios.append(f"{more / steps:.2f}")
    return name, f"{steps:,}", ", ".join(ratios)


SECTIONS = {
    "a `put` of no byte, by the gate called last": ".sandbox 256\n.gate exit 0\n.gate put 1\n"
                                                   + " li a1, 0\n call put\n" * 3 + " ebreak\n",
    "by the other of two": ".sandbox 256\n.gate exit 0\n.gate put 1\n.gate other 1\n"
                           + " li a1, 0\n call put\n li a1, 0\n call other\n" * 3 + " ebreak\n",
    "a yield, and the neighbour's entry": (".sandbox 256\n.gate yield 3\n" + " call yield\n" * 4 + " ebreak\n") * 2}


def section(text, chip, folder):
    """The shortest section of each host, of the same image."""
    image = built(text, chip)
    lines = [in_user_mode(image, folder, chip=chip)[-1], run(image, IN_ONE_MODE, "", folder, chip=chip)[-1]]
    return [re.search(r"shortest=(\d+)", line)[1] for line in lines]


def print_row(*cells):
    print("|", " | ".join(cells), "|")


def main():
    subprocess.run(["make", "-s", "-C", compiled.EXAMPLES], check=True)
    at_the_chip()
    with tempfile.TemporaryDirectory() as folder:
        print_row("", "in U-mode", "beside the host, in the three formats")
        print_row("---", "---", "---")
        for name in PROGRAMS:
            print_row(*row(name, folder))
        for what, text in SECTIONS.items():
            for chip in CHIPS:
                print_row(f"{what}, `{chip}`", *section(text, chip, folder))


if __name__ == "__main__":
    main()
