#!/usr/bin/env python3
"""Makes suygapid_run.c, the proved runtime in one file of C11, of the crate sfi_run.

    tools/runtime_file.py [FILE]     # crates/sfi_run/out/suygapid_run.c if absent

tools/wasm_module.py makes a module for wasm64 of the proved crate. Here each instruction of it that accesses memory becomes a call
of a function, which has the address and the offset, and each address of a constant the sum of a call and an offset; wasm2c
writes the rest as C (tools/one_file.py), and tools/runtime_file/reach.c has those functions: the module's addresses are the host's own.
Which numbers are addresses of constants two links tell, which differ in nothing but the place of the constants.
"""
import os
import re
import sys
import tempfile

sys.dont_write_bytecode = True
import libraries
import one_file
import toolchain
import wasm_module

FOLDER = os.path.join(toolchain.TOP, "tools", "runtime_file")
PARTS = ("front.c", "reach.c", "begin.c")
TARGET = libraries.path("sfi_run", "out", "suygapid_run.c")
PLACES = (1 << 20, 1 << 21)  # of the constants, in the two links
FORM = wasm_module.Form(("-mcpu=lime1", "-mbulk-memory", "-matomics"), wasm_module.SHUFFLED_BYTES, (wasm_module.WIDE, wasm_module.HEAP),
                        ("--import-undefined", "--no-check-features"), ("__stack_pointer", "__heap_base"))

ACCESS = re.compile(r"(i32|i64)\.(load|store|atomic\.load|atomic\.rmw\.cmpxchg|atomic\.rmw)([\w.]*)(?: offset=(\d+))?(?: align=\d+)?")
OTHER_ACCESS = re.compile(r"memory\.|\w+\.atomic|atomic\.|call_indirect")
OF_REACH = re.compile(r"(?:\bLOAD\(|\bSTORE\(|Z_envZ_)(\w+)")
WHOLE_ACCESSES = {"memory.copy": "(param i64 i64 i64)", "memory.fill": "(param i64 i32 i64)"}
PARAMETERS = {"load": "(param i64 i64) (result {0})", "atomic.load": "(param i64 i64) (result {0})", "store": "(param i64 {0} i64)",
              "atomic.rmw": "(param i64 {0} i64) (result {0})", "atomic.rmw.cmpxchg": "(param i64 {0} {0} i64) (result {0})"}
ATOMICS = ("i64_atomic_load", "i64_atomic_rmw_sub", "i64_atomic_rmw_cmpxchg")  # of the counts of owners
CONSTANT = re.compile(r"i64\.const (\d+)")
DATA = re.compile(r"\(data \$\.rodata\S* \(i64\.const (\d+)\) \"(.*)\"\)\)?")
GLOBAL_END = re.compile(r"\(global \(;\d+;\) i64 \(i64\.const (\d+)\)\)")
ESCAPED = re.compile(rb"\\([0-9a-f]{2}|[tnr\"'\\])")
OWN = """
/* ---- What the module is made of, beside its functions: its stack and its constants */

#define MODULE_STACK {stack}
static const _Alignas(16) uint8_t constants[] = {{
    {constants}}};
"""
# Of a function that takes a frame: its size and the local variable for it, and whether the stack pointer moves; and how it moves back.
FRAME = re.compile(r"global\.get \$__stack_pointer\n +i64\.const (\d+)\n +i64\.sub\n +local\.(?:set|tee) (\d+)$"
                   r"(\n +global\.set \$__stack_pointer\b)?", re.MULTILINE)
FRAME_END = r"\blocal\.get {1}\n +i64\.const {0}\n +i64\.add\n +global\.set \$__stack_pointer\b"
GLOBAL_USED = re.compile(r"\bglobal\.[gs]et ")
STACK_POINTER = "(global $__stack_pointer (mut i64) "
CALLED = re.compile(r"^ +call ([^\s)]+)", re.MULTILINE)
IMPORTED = re.compile(r'\(import "\w+" "\w+" \(func (\$\S+) ')
EXPORTED = re.compile(r'\(export "\w+" \(func (\S+?)\)\)')
LEFT_OUT = ("(memory ", "(export \"memory\"", "(data ", "(export \"__heap_base\"")
CALL_OF_HEADER = re.compile(r"^(\w+) (sfi_run_\w+)\(([^)]*)\);", re.MULTILINE)
HELD = re.compile(r"struct sfi_run_(world|module|console) \*(\w+)")
# What the module reads and writes as the host does: structs and numbers of one layout wherever addresses have 32 or 64 bits.
SHARED = r"uint8_t|char|uint32_t|struct sfi_verdict|struct sfi_run_(?:event|region|registers)"
POINTER = re.compile(rf"(?:const )?(?:{SHARED}) (?:\*(\w+)|(\w+)\[\w+\])")
NUMBER = re.compile(r"(?:uint32_t|size_t) (\w+)")


def missing():
    """What isn't there that this needs, or nothing."""
    return one_file.missing(["wasm2wat", "wat2wasm"], [])


# ---- the module


def linked(kit, room):
    """The lines of the module's text, with the constants at each of the two places."""
    made = wasm_module.objects(kit, ["sfi_run"], FORM, room)
    texts = []
    for place in PLACES:
        module = f"{room}/at{place}.wasm"
        wasm_module.link(kit, module, ["sfi_run"], FORM, [f"--global-base={place}", *made], room)
        texts.append(one_file.run("wasm2wat", "--enable-memory64", "--enable-threads", module, folder=room).splitlines())
    return texts


def offset_of(one, other):
    """A number's offset among the constants, by what stands for it in the two links; None where it is no address."""
    if one == other:
        return None
    if other - one != PLACES[1] - PLACES[0]:
        one_file.fail(f"the two links differ in more than the place of the constants: {one}, {other}")
    return one - PLACES[0]


def address(offset):
    return f"call $constants i64.const {offset} i64.add"


class Opened:
    """The text of a module without memory: its accesses are calls of functions that it imports."""

    def __init__(self, texts):
        self.known = OF_REACH.findall(one_file.read(FOLDER, "reach.c"))
        self.imports = {"constants": "(result i64)"}
        self.lines = [self.opened(*pair) for pair in zip(*texts, strict=True)]

    def refuse(self, instruction):
        one_file.fail(f"reach.c has no function for an instruction of the module: {instruction}")

    def called(self, instruction, kind):
        name = instruction.replace(".", "_")
        if name not in self.known:
            self.refuse(instruction)
        self.imports[name] = kind
        return f"call ${name}"

    def opened(self, one, other):
        """What stands for an instruction, which may be followed by the end of its function."""
        code, another = one.strip().rstrip(")"), other.strip().rstrip(")")
        end = one.strip()[len(code):]
        if one.strip().startswith(LEFT_OUT):
            return ""
        found = ACCESS.fullmatch(code)
        if found:
            offset = int(found[4] or 0)
            further = offset_of(offset, int(ACCESS.fullmatch(another)[4] or 0))
            at = f"i64.const {offset}" if further is None else address(further)
            return f"{at} {self.called(code.split()[0], PARAMETERS[found[2]].format(found[1]))}{end}"
        if code in WHOLE_ACCESSES:
            return self.called(code, WHOLE_ACCESSES[code]) + end
        if OTHER_ACCESS.match(code):
            self.refuse(code)
        if code != another and not code.startswith(("(module", "(global (;")):
            values = [CONSTANT.fullmatch(it) for it in (code, another)]
            if not all(values):
                one_file.fail(f"the two links differ: {code}, {another}")
            return address(offset_of(*(int(it[1]) for it in values))) + end
        return one

    def check_atomics(self):
        """Refuses a module whose counts of owners became plain loads and stores, as clang makes them where it has no atomics."""
        lacking = [it for it in ATOMICS if it not in self.imports]
        if lacking:
            one_file.fail(f"the module has no {' or '.join(lacking)}, which counts of owners take")

    def text(self):
        imports = (f'(import "env" "{name}" (func ${name} {kind}))' for name, kind in sorted(self.imports.items()))
        return "\n".join(["(module", *imports, *self.lines[1:], ")"])


def bytes_of(text):
    """The bytes of a text in quotes of WebAssembly's text format."""
    plain = {b"t": b"\t", b"n": b"\n", b"r": b"\r"}
    return ESCAPED.sub(lambda found: bytes.fromhex(found[1].decode()) if len(found[1]) == 2 else plain.get(found[1], found[1]),
                       text.encode("latin-1"))


def constants(lines, place):
    """The bytes of the module's constants and then zeros, up to its heap."""
    end = max(int(it[1]) for it in map(GLOBAL_END.fullmatch, (line.strip() for line in lines)) if it)
    found = bytearray(end - place)
    for line in (it.strip() for it in lines if it.strip().startswith("(data ")):
        data = DATA.fullmatch(line)
        if not data:
            one_file.fail(f"the module has data that aren't constants at a known place: {line[:80]}")
        first, data_bytes = int(data[1]) - place, bytes_of(data[2])
        if first < 0 or first + len(data_bytes) > len(found):
            one_file.fail(f"constants lie outside their room: {line[:80]}")
        found[first:first + len(data_bytes)] = data_bytes
    return bytes(found)


def check_constants(texts):
    """Refuses constants that the two links place differently: they hold addresses, which only a running host knows."""
    if len({constants(lines, place) for lines, place in zip(texts, PLACES)}) > 1:
        one_file.fail("the module has addresses among the constants")


# ---- the stack


def frame_size(text):
    """How much of the stack a function takes: at most one frame, of a constant size, which it gives back as a whole."""
    frames = FRAME.findall(text)
    uses = [1 + bool(moved) + len(re.findall(FRAME_END.format(size, local), text)) for size, local, moved in frames]
    if len(frames) > 1 or sum(uses) != len(GLOBAL_USED.findall(text)):
        one_file.fail(f"a function takes its frame in another way: {text.split()[0]}")
    return int(frames[0][0]) if frames else 0


def functions(text):
    """Of each function its frame on the module's stack, and which it calls. What the module imports takes none of it."""
    found = {it: (0, set()) for it in IMPORTED.findall(text)}
    for one in text.split("\n  (func ")[1:]:
        found[one.split()[0]] = frame_size(one), set(CALLED.findall(one))
    return found


def deepest(found, name, callers=()):
    """How much of the stack a function and those that it calls take at most."""
    if name in callers:
        one_file.fail(f"{name} calls itself, so that no stack is known to be deep enough")
    if name not in found:
        one_file.fail(f"no function has the name {name}, so that its frame isn't known")
    frame, called = found[name]
    return frame + max((deepest(found, it, (*callers, name)) for it in called), default=0)


def stack_size(lines):
    """How much of the module's stack any call takes at most."""
    changing = [it.strip() for it in lines if it.strip().startswith("(global ") and "(mut " in it]
    if len(changing) != 1 or not changing[0].startswith(STACK_POINTER):
        one_file.fail(f"the module's stack pointer isn't its only global that changes: {changing}")
    text = "\n".join(lines)
    found = functions(text)
    return max(deepest(found, it) for it in EXPORTED.findall(text))


# ---- the calls of the header


def argument(parameter):
    """How a parameter of sfi_run.h is passed to the module."""
    held, pointer, number = (it.fullmatch(parameter) for it in (HELD, POINTER, NUMBER))
    if held:
        return f"at_of(&held_{held[2]})"
    if pointer:
        return f"at_of({pointer[1] or pointer[2]})"
    if not number:
        one_file.fail(f"sfi_run.h has a parameter that the module may have another layout for: {parameter}")
    return number[1]


def call_of(result, name, parameters):
    """The C of a call: it makes the module anew, with a stack of the call's own, and hands on the arguments."""
    given = [] if parameters == "void" else re.split(r",\s*", parameters)
    held = [it[2] for it in map(HELD.fullmatch, given) if it]
    passed = ", ".join(["&call.module", *map(argument, given)])
    lines = [f"{result} {name}({parameters}) {{", "    struct call call;", "    begin(&call);"]
    for it in held:
        lines += [f"    struct held held_{it} = {{{it}->held, 0, at_of({it}->at)}};", f"    {it}->held = 0, {it}->at = NULL;"]
    lines.append(f"    {'' if result == 'void' else f'{result} answer = ({result})'}Z_sfi_runZ_{name}({passed});")
    lines += [f"    {it}->held = held_{it}.held, {it}->at = place(held_{it}.at);" for it in held]
    return "\n".join([*lines, *([] if result == "void" else ["    return answer;"]), "}\n\n"])


def header():
    """The texts of sfi.h and sfi_run.h, and of the latter's calls."""
    text = one_file.read(libraries.header("sfi_run"))
    calls = CALL_OF_HEADER.findall(re.sub(r"/\*.*?\*/", "", text, flags=re.DOTALL))
    if sorted(name for _, name, _ in calls) != libraries.calls(libraries.header("sfi_run")):
        one_file.fail("sfi_run.h declares a call in another way")
    return one_file.read(libraries.header("sfi_c")) + text.replace('#include "sfi.h"\n', ""), calls


def numbers(data):
    rows = (", ".join(map(str, data[it:it + 32])) for it in range(0, len(data), 32))
    return ",\n    ".join(rows)


def is_fresh(target):
    """Whether the file is there, and no older than all that it is made of."""
    made_of = [__file__, one_file.__file__, wasm_module.__file__, *FORM.c_files, libraries.header("sfi_c"), libraries.header("sfi_run"),
               *(os.path.join(FOLDER, it) for it in PARTS)]
    return not wasm_module.is_older(target, "sfi_run") and os.path.getmtime(target) >= max(map(os.path.getmtime, made_of))


def make(target=TARGET):
    """Makes the file, where it isn't fresh, and gives its path."""
    one_file.check_there(missing())
    one_file.check_version("wasm2wat", "wat2wasm", "wasm2c")
    if is_fresh(target):
        return target
    rtlib = toolchain.rtlib()
    wasm_module.keep_late(rtlib, ["sfi_run"])
    text, calls = header()
    with tempfile.TemporaryDirectory() as room:
        texts = linked(rtlib.KIT, room)
        check_constants(texts)
        opened = Opened(texts)
        opened.check_atomics()
        with open(f"{room}/opened.wat", "w", encoding="latin-1") as file:
            file.write(opened.text())
        one_file.run("wat2wasm", "opened.wat", "-o", "opened.wasm", folder=room)
        declared, code = one_file.translated(room, "opened.wasm", "sfi_run")
    own = OWN.format(stack=stack_size(texts[0]) // 16 * 16 + 64, constants=numbers(constants(texts[0], PLACES[0])))
    front, reach, begin = (one_file.read(FOLDER, it) for it in PARTS)
    return one_file.write(target, [front, text, own, reach, one_file.quiet(declared + code), begin, *(call_of(*it) for it in calls)])


if __name__ == "__main__":
    one_file.main(make)
