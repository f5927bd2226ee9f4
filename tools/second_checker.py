#!/usr/bin/env python3
"""A second checker of images, written from docs/IMAGE.md (but single masks before they stood there) and the encodings of the RISC-V
manual. It prints what `sfi check` prints, and ends as it does.

    tools/second_checker.py [--raw | --report] < IMAGE    # hexadecimal text; with --raw an image's own bytes

It wants Python alone, imports nothing of this repository but its decoder of instructions, second_decoder.py, and nothing is
proved of it. Each function says a sentence of docs/IMAGE.md, so that one can be read beside the other.
"""
import collections
import struct
import sys

from second_decoder import BRANCHES, LAST_NAMES, front, is_access, is_load, is_mask, spelled, written

# ---- layout

WORDS, SINGLE = 3, 4  # the formats of code in words: that with masks of two steps, and that with single ones
MAGICS = {b"SFI1": 1, b"SFI2": 2, b"SFIW": WORDS, b"SFIS": SINGLE}
MOST_CODE = {1: 65536, 2: 1048576, 3: 16777216, 4: 16777216}
MOST_DATA = {1: 1048576, 2: 1048576, 3: 1073741824, 4: 1073741824}
FAULTS = "Magic Count Short Code Data GuardRoom Start Gates Init Overlap Trailing".split()
BASE_OF_DATA, BASE_OF_CODE, CODE_MASK, DATA_MASK = 26, 24, 25, 27
RESERVED = (BASE_OF_CODE, CODE_MASK, BASE_OF_DATA, DATA_MASK)
STUB = bytes.fromhex("73000000b3ff9001b3ef8f0167800f00")

Sandbox = collections.namedtuple("Sandbox", "code_base gates code")


class Fault(Exception):
    """What the bytes aren't, in a line, as in `layout fault 3 Short`."""


class Reader:
    def __init__(self, data):
        self.data, self.at = data, 0

    def take(self, length):
        require(self.at + length <= len(self.data), "Short")
        self.at += length
        return self.data[self.at - length : self.at]

    def numbers(self, count):
        return struct.unpack(f"<{count}I", self.take(4 * count))


def require(fact, name):
    if not fact:
        raise Fault(f"layout fault {FAULTS.index(name) + 1} {name}")


def is_region(base, size, most):
    return size in (1 << power for power in range(8, most.bit_length())) and base % size == 0


def is_one_bit(number):
    return number > 0 and number & number - 1 == 0


def is_clear_of_zero(begin, end, size):
    """Whether a span has no address in the zone at zero of data of this size."""
    return begin >= size + 4096 and end <= (1 << 32) - 4096


def read_sandbox(reader, format, spans, sizes):
    """A sandbox. `spans` and `sizes` have the spans and the data sizes of those before it, and get its own."""
    code_base, code_size, data_base, data_size, start, gate_count, data_count = reader.numbers(7)
    code, data_end = range(code_base, code_base + code_size), data_base + data_size
    require(is_region(code_base, code_size, MOST_CODE[format]), "Code")
    require(is_region(data_base, data_size, MOST_DATA[format]), "Data")
    require(format != SINGLE or is_one_bit(data_base) and data_size <= data_base, "Data")
    require(data_base >= 4096 and data_end + 4096 <= 1 << 32, "GuardRoom")
    own = [(code_base, code.stop), (data_base, data_end)]
    require(format != SINGLE or all(is_clear_of_zero(*span, data_size) for span in own), "GuardRoom")
    require(start % 16 == 0 and start in code, "Start")
    require(gate_count <= 64, "Gates")
    require(data_count <= data_size, "Init")
    spans += [(code_base, code.stop), (data_base - 4096, data_end + 4096)]
    sizes.append(data_size)
    ordered = sorted(spans)
    require(all(one[1] <= next_one[0] for one, next_one in zip(ordered, ordered[1:])), "Overlap")
    require(format != SINGLE or all(is_clear_of_zero(*span, size) for span in spans for size in sizes), "Overlap")
    gates = []
    for _ in range(gate_count):
        address, service = reader.numbers(2)
        is_gate = address % 16 == 0 and address in code and address > max(gates, default=-1) and service <= 5
        require(is_gate, "Gates")
        gates.append(address)
    sandbox = Sandbox(code_base, frozenset(gates), reader.take(code_size))
    reader.take(data_count)
    return sandbox


def read_image(data):
    """The format and the sandboxes of an image."""
    reader, spans, sizes = Reader(data), [], []
    magic = reader.take(4)
    require(magic in MAGICS, "Magic")
    (count,) = reader.numbers(1)
    require(1 <= count <= 16, "Count")
    sandboxes = [read_sandbox(reader, MAGICS[magic], spans, sizes) for _ in range(count)]
    require(reader.at == len(data), "Trailing")
    return MAGICS[magic], sandboxes


# ---- what both sets of rules say

Finding = collections.namedtuple("Finding", "place rule instruction")


def rule_of_registers_and_calls(it, address, sandbox, reserved):
    """V3 or V4."""
    if it.name == "ecall" and address not in sandbox.gates:
        return "V3"
    return "V4" if written(it) in reserved else None


def leads_out(it, address, sandbox, unit):
    """V7: whether it is a jump or branch to where nothing may begin."""
    if it.name != "jal" and it.name not in BRANCHES.values():
        return False
    target = (address + it.number) % (1 << 32)
    return target % unit != 0 or not 0 <= target - sandbox.code_base < len(sandbox.code)


# ---- code in bundles


def bundle(sandbox, begin):
    """The places of a bundle and what is read at each. Nothing is read after bytes that can't be read."""
    found, place = [], begin
    while place < begin + 16:
        it = front(sandbox.code, place, begin + 16)
        found.append((place, it))
        place += 16 if isinstance(it, str) else it.size
    return found


def is_masked(before, register, mask, base):
    """Whether `and t, a, mask`; `or t, t, base` are the last two before an instruction in its bundle."""
    if register == 0 or BASE_OF_CODE <= register <= DATA_MASK or len(before) < 2:
        return False
    return is_mask(before[-2], "and", register, None, mask) and is_mask(before[-1], "or", register, register, base)


def is_stack_pair(first, second):
    return is_mask(first, "and", 2, None, DATA_MASK) and is_mask(second, "or", 2, 2, BASE_OF_DATA)


def breaks_stack(all_read, n):
    """V10 of code in bundles: whether the n-th of a bundle writes x2 and may not."""
    it, padded = all_read[n], [None, *all_read, None, None, None]
    if written(it) != 2:
        return False
    before, after, second = padded[n], padded[n + 2], padded[n + 3]
    if is_stack_pair(it, after) or is_stack_pair(before, it):
        return False
    return it.name in ("jal", "jalr") or not is_stack_pair(after, second)


def rule_in_bundle(format, sandbox, found, n):
    """The lowest rule that the n-th instruction of a bundle breaks."""
    place, it = found[n]
    if isinstance(it, str):
        return it
    address, begin = sandbox.code_base + place, place & ~15
    all_read = [None if isinstance(other, str) else other for _, other in found]
    before = all_read[:n]
    rule = rule_of_registers_and_calls(it, address, sandbox, RESERVED)
    if rule:
        return rule
    if is_access(it) and not (format == 2 and it.rs1 == 2) and not is_masked(before, it.rs1, DATA_MASK, BASE_OF_DATA):
        return "V5"
    if it.name == "jalr" and (it.number or not is_masked(before, it.rs1, CODE_MASK, BASE_OF_CODE)):
        return "V6"
    if leads_out(it, address, sandbox, 16):
        return "V7"
    is_last = n == len(found) - 1 and begin + 16 == len(sandbox.code) and None not in all_read
    if is_last and it.name not in LAST_NAMES:
        return "V8"
    return "V10" if format == 2 and breaks_stack(all_read, n) else None


def findings_in_bundles(format, sandbox):
    for begin in range(0, len(sandbox.code), 16):
        if sandbox.code_base + begin in sandbox.gates:
            if sandbox.code[begin : begin + 16] != STUB:
                yield Finding(begin, "V9", None)
            continue
        found = bundle(sandbox, begin)
        for n, (place, it) in enumerate(found):
            rule = rule_in_bundle(format, sandbox, found, n)
            if rule:
                yield Finding(place, rule, it)


# ---- code in words

CODE_REGISTER, OFFSET_REGISTER = 30, 31


class Words:
    """What the rules look for where a data register's mask has two steps."""
    data_registers, reserved = (2, 3, 4, 29), RESERVED
    bases = (*data_registers, BASE_OF_DATA)  # of accesses

    @staticmethod
    def makes_data(it, register):
        """Whether it is the last step of a mask, which makes the register one of data."""
        return is_mask(it, "or", register, OFFSET_REGISTER, BASE_OF_DATA)

    @staticmethod
    def begins_mask(it, register):
        """Whether it is the first step."""
        return masks_offset(it, register)

    @staticmethod
    def breaks_offset(it):
        """V12."""
        return written(it) == OFFSET_REGISTER and not masks_offset(it, None)


class Single:
    """The same where it has one."""
    data_registers, reserved = (2, 3, 4, 26, 29, 31), (BASE_OF_CODE, CODE_MASK, DATA_MASK)
    bases = data_registers

    @staticmethod
    def makes_data(it, register):
        return is_mask(it, "and", register, None, DATA_MASK)

    begins_mask = makes_data

    @staticmethod
    def breaks_offset(_):
        return False


def masks_offset(it, register):
    """Whether it is `and x31, a, x27` of that register; None stands for any."""
    return is_mask(it, "and", OFFSET_REGISTER, register, DATA_MASK)


def is_near_access(it, register):
    is_one = is_access(it) and not (is_load(it) and it.rd == 0)
    return is_one and it.rs1 == register and -1020 <= it.number <= 1020


def owed_after(rules, it, owed):
    """What has to come next: a rule and a test of the next instruction, of which the rule is broken where it fails. None is
    owed after most. The register is that of a mask's first step that may come next, or 0."""
    register = written(it)
    if owed and owed[2] and rules.begins_mask(it, owed[2]) and not rules.makes_data(it, owed[2]):
        d = owed[2]
        return "V10", lambda after: rules.makes_data(after, d), 0
    if register in rules.data_registers and not rules.makes_data(it, register) and it.name not in ("jal", "jalr"):
        may_step = it.name == "addi" and it.rs1 == register
        return "V10", lambda after: rules.begins_mask(after, register) or may_step and is_near_access(after, register), register
    if is_mask(it, "and", CODE_REGISTER, None, CODE_MASK):
        return "V11", lambda after: is_mask(after, "or", CODE_REGISTER, CODE_REGISTER, BASE_OF_CODE), 0
    return None


def rule_in_word(rules, sandbox, place, it, owed, is_last):
    """The lowest rule that an instruction breaks."""
    address, register = sandbox.code_base + place, written(it)
    rule = rule_of_registers_and_calls(it, address, sandbox, rules.reserved)
    if rule:
        return rule
    if is_access(it) and it.rs1 not in rules.bases:
        return "V5"
    if it.name == "jalr" and (it.rs1 != CODE_REGISTER or it.number):
        return "V6"
    if leads_out(it, address, sandbox, 4):
        return "V7"
    if is_last and it.name not in LAST_NAMES:
        return "V8"
    broken = {owed[0]} if owed and not owed[1](it) else set()
    if register in rules.data_registers and it.name in ("jal", "jalr"):
        broken.add("V10")
    is_code = is_mask(it, "and", CODE_REGISTER, None, CODE_MASK) or is_mask(it, "or", CODE_REGISTER, CODE_REGISTER, BASE_OF_CODE)
    if register == CODE_REGISTER and not is_code:
        broken.add("V11")
    if rules.breaks_offset(it):
        broken.add("V12")
    return min(broken, default=None)


def word_at(code, begin):
    """The places of a word and what is read at each."""
    first = front(code, begin, begin + 4)
    if isinstance(first, str) or first.size == 4:
        return [(begin, first)]
    return [(begin, first), (begin + 2, front(code, begin + 2, begin + 4))]


def findings_in_words(rules, sandbox):
    owed = None
    for begin in range(0, len(sandbox.code), 4):
        found = word_at(sandbox.code, begin)
        decodes = all(not isinstance(it, str) for _, it in found)
        for place, it in found:
            if isinstance(it, str):
                owed = None
                yield Finding(place, it, it)
                continue
            is_last = decodes and place + it.size == len(sandbox.code)
            rule = rule_in_word(rules, sandbox, place, it, owed, is_last)
            owed = owed_after(rules, it, owed)
            if rule:
                yield Finding(place, rule, it)


# ---- what is printed

NAMES = dict(V1="decode", V2="cross", V3="ecall", V4="reserved", V5="access", V6="jump", V7="target", V8="end", V9="gate",
             V10="stack", V11="code", V12="offset")


IN_WORDS = {WORDS: Words, SINGLE: Single}


def report_line(format, number, sandbox, place, rule, it):
    name = "data" if rule == "V10" and format in IN_WORDS else NAMES[rule]
    if rule == "V9":
        text = "stub expected"
    elif isinstance(it, str):
        text = f".half 0x{int.from_bytes(sandbox.code[place : place + 2], 'little'):04x}"
    else:
        text = spelled(it)
    return f"{number} {sandbox.code_base + place:08x} {rule} {name} {text}"


def judged(data):
    """The status for an image's bytes, and the lines of a report on it, of which the last one is the verdict."""
    try:
        format, sandboxes = read_image(data)
    except Fault as fault:
        return 2, [str(fault)]
    lines = []
    for number, sandbox in enumerate(sandboxes):
        found = findings_in_words(IN_WORDS[format], sandbox) if format in IN_WORDS else findings_in_bundles(format, sandbox)
        lines += [report_line(format, number, sandbox, *it) for it in found]
    if not lines:
        return 0, [f"accepted sandboxes={len(sandboxes)} bundles={sum(len(it.code) for it in sandboxes) // 16}"]
    number, address, rule = lines[0].split()[:3]
    return 1, lines + [f"refused findings={len(lines)} first={rule} sandbox={number} at={address}"]


def image_of(text):
    """The bytes that hexadecimal text spells."""
    if len(text) > 134217728:
        raise Fault("input fault too large")
    digits = text.translate(None, b" \t\r\n")
    if len(digits) % 2:
        raise Fault("input fault hex odd")
    wrong = next((n for n, it in enumerate(digits) if it not in b"0123456789abcdefABCDEF"), None)
    if wrong is not None:
        raise Fault(f"input fault hex digit {wrong}")
    return bytes.fromhex(digits.decode())


def main(words):
    if words not in ([], ["--raw"], ["--report"]):
        sys.exit("usage: tools/second_checker.py [--raw | --report] < IMAGE")
    given = sys.stdin.buffer.read()
    try:
        status, lines = judged(given if words == ["--raw"] else image_of(given))
    except Fault as fault:
        status, lines = 2, [str(fault)]
    print(*(lines if words == ["--report"] else lines[-1:]), sep="\n")
    return status


if __name__ == "__main__":
    sys.exit(main(sys.argv[1:]))
