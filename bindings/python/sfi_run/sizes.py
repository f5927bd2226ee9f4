"""A host's own limits, below those of images' formats:

    from sfi_run import sizes

    sizes.check(image, code=1 << 20, data=1 << 24)  # raises TooLarge, before memory is asked for
    world = sfi_run.World(image)
"""
from __future__ import annotations

import struct

_FRONT, _MOST = 8, 16  # bytes before the first sandbox's numbers; sandboxes of an image
_NUMBERS = struct.Struct("<7I")  # code base and size, data base and size, start, gates, first data bytes
_GATE = 8


class TooLarge(Exception):
    """The `sandbox` of that number has `size` bytes of `what`, code or data, and the host takes at most `most`."""

    def __init__(self, sandbox: int, what: str, size: int, most: int) -> None:
        super().__init__(sandbox, what, size, most)
        self.sandbox, self.what, self.size, self.most = sandbox, what, size, most

    def __str__(self) -> str:
        return f"sandbox {self.sandbox} has {self.size} bytes of {self.what}, and this host takes at most {self.most}"


def check(image: bytes, code: int | None = None, data: int | None = None) -> None:
    """Raises TooLarge where a sandbox of the image has more bytes of code or of data than that, None being any number. No more is
    looked at: of bytes that are no image nothing is said, and `World` refuses them."""
    at, count = _FRONT, min(int.from_bytes(image[4:_FRONT], "little"), _MOST)
    for number in range(count):
        if at + _NUMBERS.size > len(image):
            return
        _, code_size, _, data_size, _, gates, first = _NUMBERS.unpack_from(image, at)
        for what, size, most in (("code", code_size, code), ("data", data_size, data)):
            if most is not None and size > most:
                raise TooLarge(number, what, size, most)
        at += _NUMBERS.size + _GATE * gates + code_size + first
