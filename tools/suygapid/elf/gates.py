"""The stubs of gates, as GNU assembly: each in a section of its own, and a line of `.sfi.gates` for tools/sfi-image."""

SCRATCH = {"1": "x31", "2": "x31", "words": "x30", "single": "x30"}  # the register that a format returns by
STUB = """\
    .section .sfi.stubs.{name},"ax",@progbits
    .option norvc
    .option norelax
    .p2align 4
    .globl {name}
    .type {name}, @function
{name}:
    ecall
    and {scratch}, ra, x25
    or {scratch}, {scratch}, x24
    jalr x0, 0({scratch})
    .size {name}, .-{name}
    .section .sfi.gates,"",@progbits
    .4byte {name}, {service}
    .weak __sfi_format_{format}
    .set __sfi_format_{format}, 1
"""


def stub(name: str, service: int, image_format: str) -> str:
    return STUB.format(name=name, service=service, scratch=SCRATCH[image_format], format=image_format)
