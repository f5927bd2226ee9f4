"""Whether two object files have the same data: bytes, addresses in them, and symbols."""
from dataclasses import replace

GLOBAL, WEAK = 1, 2  # how files share a symbol
ARRAYS = (".preinit_array", ".init_array", ".fini_array")


def address(relocation):
    return relocation.kind, relocation.symbol.name, relocation.addend


def differences(left, right):
    """What differs, in lines."""
    for name, section in left.sections.items():
        if section.is_data() and section.size:
            other = right.sections.get(name)
            if other is None or (section.size, section.content) != (other.size, other.content):
                yield f"the section {name} has other bytes in the rewritten file"
            else:
                yield from differences_of_addresses(name, section, other)
    yield from differences_of_symbols(left, right)


def differences_of_addresses(name, section, other):
    """An array of functions also has a relocation that stands for nothing, by which the linker takes in what calls them."""
    for place in sorted(section.relocations.keys() | other.relocations.keys()):
        pair = [[address(one) for one in it.relocations.get(place, ()) if one.kind != "number 0"] for it in (section, other)]
        if pair[0] != pair[1]:
            yield f"{name}+{place:#x} has another address in the rewritten file"


def differences_of_symbols(left, right):
    for name, symbol in left.named.items():
        if symbol.section is None and not symbol.common and not symbol.binding:
            continue
        other = right.named.get(name)
        is_elsewhere = symbol.section is not None and not left.sections[symbol.section].is_data()
        if is_elsewhere or name.startswith((".", "$", "sfi_line_")):
            continue  # in code, in debug information, or of this file alone
        if other is None and symbol.section is None:
            continue  # a name that nothing in the rewritten code wants any more
        if symbol.section is None and symbol.binding == WEAK and f"__sfi_import_{name}" in right.named:
            symbol = replace(symbol, binding=GLOBAL)  # a gate by SFI_IMPORT
        if other is None or other != symbol:
            yield f"the symbol {name} is another one in the rewritten file"
