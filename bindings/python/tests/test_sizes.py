"""Tests of a host's own limits. They need no library."""
import struct
import unittest

from sfi_run import sizes


def image(*sandboxes):
    """The bytes of an image in words whose sandboxes have so much code and data, two gates and some first data bytes."""
    made = [b"SFIW" + struct.pack("<I", len(sandboxes))]
    for number, (code, data) in enumerate(sandboxes):
        base = (number + 1) << 24
        gates = struct.pack("<4I", base, 0, base + 16, 1)
        made.append(struct.pack("<7I", base, code, base + (1 << 23), data, base, 2, 3) + gates + b"\x02\x90" * (code // 2) + b"abc")
    return b"".join(made)


class Sizes(unittest.TestCase):
    def refused(self, given, **most):
        with self.assertRaises(sizes.TooLarge) as raised:
            sizes.check(given, **most)
        return raised.exception

    def test_limits(self):
        given = image((256, 4096), (1024, 1 << 22))
        sizes.check(given)
        sizes.check(given, code=1024, data=1 << 22)
        found = self.refused(given, code=1023)
        self.assertEqual((found.sandbox, found.what, found.size, found.most), (1, "code", 1024, 1023))
        self.assertEqual(str(found), "sandbox 1 has 1024 bytes of code, and this host takes at most 1023")
        found = self.refused(given, code=255, data=4095)
        self.assertEqual((found.sandbox, found.what, found.size, found.most), (0, "code", 256, 255))
        found = self.refused(given, data=4096)
        self.assertEqual((found.sandbox, found.what, found.size, found.most), (1, "data", 1 << 22, 4096))

    def test_what_is_no_image(self):
        """Nothing is said of it, wherever it ends, but of the sandboxes that are there."""
        given = image((256, 4096), (1024, 1 << 22))
        for length in range(len(given)):
            sizes.check(given[:length], code=1024, data=1 << 22)
        self.refused(given[:36], data=256)
        sizes.check(b"", code=0, data=0)
        sizes.check(b"\xff" * 7, code=0, data=0)


if __name__ == "__main__":
    unittest.main()
