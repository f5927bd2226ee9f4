#!/usr/bin/env python3
"""Writes the translation of an accepted image, from what `sfi dis` lists. The crate sfi_translate makes it of the image's bytes.

    examples/translate/lines.py SFI IMAGE.hex > IMAGE.inc
"""
import re
import struct
import subprocess
import sys

FUNCTION_MOST = 16384
HEAD_BYTES = 128
COMPUTATIONS = "add sub sll slt sltu xor srl sra or and mul mulh mulhsu mulhu div divu rem remu".split()
IMMEDIATES = "addi slti sltiu xori ori andi slli srli srai".split()
LOADS = "lb lh lw lbu lhu".split()
STORES = "sb sh sw".split()
BRANCHES = "beq bne blt bge bltu bgeu".split()


def sandboxes(sfi, digits):
    """The unit of code and the sandboxes, each a dictionary of its fields, gates, and instructions."""
    listing = subprocess.run([sfi, "dis"], input=digits.encode(), stdout=subprocess.PIPE, check=True).stdout.decode()
    unit = 4 if listing.startswith(("format SFIW", "format SFIS")) else 16
    form = "SANDBOX_SINGLE" if listing.startswith("format SFIS") else "SANDBOX"
    found = []
    for line in listing.splitlines():
        words = line.split()
        if words[0] == "sandbox":
            found.append(dict(form=form, code=int(words[3], 16), code_size=int(words[4]), data=int(words[6], 16),
                              data_size=int(words[7]), start=int(words[9], 16), init=int(words[13]), gates=[],
                              instructions=[]))
        elif words[0] == "gate":
            found[-1]["gates"].append((int(words[1], 16), int(words[2])))
        elif words[0] not in ("format", "interface", "export", "import"):
            operands = [word.lstrip("x") if re.fullmatch(r"x\d+", word) else word
                        for word in re.split(r"[ ,()]+", " ".join(words[3:])) if word]
            found[-1]["instructions"].append((int(words[0], 16), len(words[1]) // 2, words[2], operands))
    image = bytes.fromhex("".join(digits.split()))
    at = 8
    for box in found:
        at += 28 + 8 * len(box["gates"]) + box["code_size"]
        box["first_data"] = image[at:at + box["init"]]
        at += box["init"]
    return unit, found


def entries_of(unit, box):
    """The units that a turn and an indirect jump enter at once: any choice is right."""
    chosen = {box["start"], *range(box["code"], box["code"] + box["code_size"], FUNCTION_MOST)}
    last = None
    for at, size, name, operands in box["instructions"]:
        if name == "jal" or name in BRANCHES:
            target = at + int(operands[-1])
            if target <= at or target // FUNCTION_MOST != at // FUNCTION_MOST or name == "jal" and operands[0] != "0":
                chosen.add(target)
        if name in ("jal", "jalr") and operands[0] != "0":
            chosen.add(at + size)
        if name == "addi" and last and last[0] == "lui" and last[1][0] == operands[1]:
            chosen.add((int(last[1][1], 0) << 12) + int(operands[2]) & 0xFFFFFFFF)
        last = (name, operands)
    for offset in range(0, len(box["first_data"]) - 3, 4):
        chosen.add(struct.unpack_from("<I", box["first_data"], offset)[0])
    return {at for at in chosen if box["code"] <= at < box["code"] + box["code_size"] and at % unit == 0}


def line_of(at, size, name, operands):
    """The line of an instruction."""
    place = f"{at:08x},{size}"

    def jump(form, kind, target):
        target &= 0xFFFFFFFF
        return f"{form}{'' if target // FUNCTION_MOST == at // FUNCTION_MOST else '_FAR'}({place},{kind},{target:08x})"

    if name in COMPUTATIONS:
        return f"OP({place},{name},{','.join(operands)})"
    if name in IMMEDIATES:
        return f"OPI({place},{name},{','.join(operands)})"
    if name in LOADS:
        return f"LOAD({place},{name},{operands[0]},{operands[2]},{operands[1]})"
    if name in STORES:
        return f"STORE({place},{name},{operands[2]},{operands[0]},{operands[1]})"
    if name in BRANCHES:
        return jump("BRANCH", f"{name},{operands[0]},{operands[1]}", at + int(operands[2]))
    if name == "jal":
        return jump("JAL", operands[0], at + int(operands[1]))
    if name == "jalr":
        return f"JALR({place},{operands[0]},{operands[2]},{operands[1]})"
    if name in ("lui", "auipc"):
        return f"{name.upper()}({place},{operands[0]},{int(operands[1], 0)})"
    return f"{name.upper()}({place})"


def lines(unit, number, box):
    """The lines of a sandbox."""
    yield (f"{box['form']}({number},{unit},{box['code']:08x},{box['code_size']},{box['data']:08x},{box['data_size']},"
           f"{box['start']:08x},{len(box['gates'])},{box['init']})")
    yield from (f"GATE({at:08x},{service})" for at, service in box["gates"])
    yield f"DATA({number}," + "".join(f"{byte}," for byte in box["first_data"]) + "0)"
    entries = entries_of(unit, box)
    for at, size, name, operands in box["instructions"]:
        if at == box["code"]:
            yield f"FUNCTION({number},{at:08x})"
        elif (at - box["code"]) % FUNCTION_MOST == 0:
            yield f"END({at:08x})"
            yield f"FUNCTION({number},{at:08x})"
        if at in entries:
            yield f"ENTRY({at:08x})"
        if at % HEAD_BYTES == 0:
            yield f"HEAD({at:08x})"
        yield line_of(at, size, name, operands)
    yield "LAST"


def translation(sfi, digits):
    """The translation of an image in hexadecimal digits."""
    unit, found = sandboxes(sfi, digits)
    return "".join(f"{line}\n" for number, box in enumerate(found) for line in lines(unit, number, box))


def main():
    sfi, path = sys.argv[1:]
    with open(path, encoding="ascii") as file:
        sys.stdout.write(translation(sfi, file.read()))


if __name__ == "__main__":
    main()
