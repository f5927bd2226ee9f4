"""Tests of what sfi-gdb answers gdb: `tools/unit_tests.py tools`. Sessions of gdb itself are in examples/c/elf/test.sh."""
import subprocess
import unittest

from suygapid.gdb.machine import End
from suygapid.gdb.stub import DONE, FEATURES, WRONG, Stub
from sfi_run import OutsideData  # which the package finds
from testing import TOOLS


class Machine:
    """Stands in for a program: nine bytes of memory, and 33 registers."""
    CONTENT, AT = b"123456789", 0x1000

    def __init__(self):
        self.registers, self.breaks, self.watches = list(range(33)), set(), set()

    def read(self, at, size):
        if not 0 <= at - self.AT < len(self.CONTENT):
            raise OutsideData
        return self.CONTENT[at - self.AT:at - self.AT + size]


class Line:
    def is_interrupted(self):
        return False


class Packets(unittest.TestCase):
    def test_answers(self):
        """What is answered by a packet's whole name. The sum is that which catalogues of CRC-32/MPEG-2 give for these bytes."""
        rows = [("qCRC:1000,9", "C376e6e7"), ("qCRC:1000,a", WRONG), ("qCRC:2000,1", WRONG), ("qCRC:x", WRONG), ("qC", "QC1"), ("qCx", ""),
                ("qSupported:multiprocess+;swbreak+", FEATURES), ("qSupportedNot", ""), ("qAttached", "0"), ("qAttached:1", "0"), ("qfThreadInfo", "m1"), ("qsThreadInfo", "l"), ("qThreadExtraInfo,1", ""),
                ("qTStatus", ""), ("QStartNoAckMode", DONE), ("vCont?", "vCont;c;C;s;S;r"), ("vContinue", ""), ("vKill;1", DONE),
                ("vMustReplyEmpty", ""), ("Hg0", DONE), ("T1", DONE), ("m1000,2", "3132"), ("m2000,2", WRONG), ("p1f", "1f000000"),
                ("p21", WRONG), ("Z0,1000,2", DONE), ("z0,1000,2", DONE), ("Z3,1000,2", ""), ("!", DONE), ("?", "T05"), ("X1000,0:", ""), ("", "")]
        for text, wanted in rows:
            with self.subTest(text):
                self.assertEqual(Stub(Machine(), Line()).answer(text), wanted)

    def test_ended(self):
        """A program that has ended has no thread, and its number is told whole."""
        stub = Stub(Machine(), Line())
        for end, told in ((End(0), "W00"), (End(105), "W69"), (End(0xffffffff), "Wffffffff"), (End(11, True), "X0b")):
            stub.stop = end
            self.assertEqual([stub.answer(text) for text in ("?", "qfThreadInfo")], [told, "l"])


class Words(unittest.TestCase):
    def test_a_program_alone_is_wanted(self):
        done = subprocess.run([TOOLS / "sfi-gdb"], capture_output=True, text=True, check=False)
        self.assertEqual(done.returncode, 2)
        self.assertTrue(done.stderr.endswith("required: PROGRAM.elf\n"), done.stderr)


if __name__ == "__main__":
    unittest.main()
