"""Tests of tools/completions.py: `tools/unit_tests.py tools test_completions.py`. Each shell is asked what it makes of a line."""
import os
import pty
import select
import subprocess
import time
import unittest

import completions
import installed
from testing import TOOLS, Folder, needs

# A line up to the cursor, and all that may stand in the place of its last word.
ROWS = [
    ("sfi che", ["check"]),
    ("sfi check --rep", ["--report"]),
    ("sfi exec --b", ["--budget"]),
    ("sfi help tra", ["translate"]),
    ("sfi --v", ["--version"]),
    ("sfi m", ["map", "move"]),
    ("sfi-cc --no-s", ["--no-signatures"]),
    ("sfi-trace --pro", ["--profile", "--program"]),
]
HELP = """usage: sfi-x [OPTIONS]

Does it.

options:
  -h, --help            show this help message and exit
  -o FILE               where to write: it's [here]
  --long-name-of-it WORDS
                        what it is
"""


class Completions(Folder):
    def setUp(self):
        super().setUp()
        for place, text in completions.files([TOOLS / it for it in ("sfi-cc", "sfi-trace")]).items():
            self.write(place, text)

    def file(self, folder, name):
        return self.path(os.path.join("share", folder, name))

    @needs("bash")
    def test_bash(self):
        for line, wanted in ROWS:
            command = line.split()[0]
            words = f"source {self.file('bash-completion/completions', command)}; COMP_WORDS=({line}); COMP_CWORD=$((${{#COMP_WORDS[@]}} - 1)); " \
                    f"_{command.replace('-', '_')}; printf '%s\\n' \"${{COMPREPLY[@]}}\""
            with self.subTest(line):
                done = subprocess.run(["bash", "-c", words], capture_output=True, text=True, check=False)
                self.assertEqual((sorted(done.stdout.split()), done.stderr), (wanted, ""))

    @needs("fish")
    def test_fish(self):
        for line, wanted in ROWS:
            words = f"source {self.file('fish/vendor_completions.d', line.split()[0])}.fish; complete -C'{line}'"
            with self.subTest(line):
                done = subprocess.run(["fish", "--no-config", "-c", words], capture_output=True, text=True, check=False,
                                      env={**os.environ, "HOME": self.folder, "XDG_DATA_HOME": self.folder})
                self.assertEqual((sorted(it.partition("\t")[0] for it in done.stdout.splitlines()), done.stderr), (wanted, ""))

    @needs("zsh")
    def test_zsh(self):
        """zsh completes by its line editor alone, so this types the lines that have one answer."""
        rows = [(line, wanted[0]) for line, wanted in ROWS if len(wanted) == 1]
        typed = [f"fpath=({self.path('share/zsh/site-functions')} $fpath); autoload -Uz compinit; compinit -D -u\r"]
        typed += [f"{line}\t\x01print -r -- GOT \r" for line, _ in rows]
        said = self.typed_to_zsh("".join([*typed, "exit\r"]))
        found = [it.split()[-1] for it in said.splitlines() if it.startswith("GOT ")]
        self.assertEqual(found, [wanted for _, wanted in rows], said)

    def typed_to_zsh(self, text):
        """What a terminal of zsh shows."""
        child, terminal = pty.fork()
        if not child:
            os.execvpe("zsh", ["zsh", "-f", "-i"], {**os.environ, "PS1": "", "TERM": "dumb", "HOME": self.folder})
        said, end = b"", time.monotonic() + 20
        os.write(terminal, text.encode())
        while time.monotonic() < end and select.select([terminal], [], [], end - time.monotonic())[0]:
            try:
                piece = os.read(terminal, 1 << 16)
            except OSError:  # it has ended
                break
            said += piece
        os.close(terminal)
        os.waitpid(child, 0)
        return said.decode(errors="replace").replace("\r", "")


class Parts(unittest.TestCase):
    def test_the_options_of_a_help_text(self):
        found = [(it.name, it.has_value, it.about) for it in completions.options_of(HELP)]
        self.assertEqual(found, [("--help", False, "show this help message and exit"), ("-o", True, "where to write: it's [here]"),
                                 ("--long-name-of-it", True, "what it is")])

    def test_what_zsh_would_take_for_its_own(self):
        option = completions.Option("-o", True, "where: it's [here]")
        self.assertEqual(completions.zsh_option(option), r"'-o[where\: it'\''s \[here\]]:value:_files'")

    def test_each_command_has_a_file_for_each_shell(self):
        names = sorted(completions.files([TOOLS / it for it in installed.TOOLS]))
        self.assertEqual(len(names), 3 * (1 + len(installed.TOOLS)))


if __name__ == "__main__":
    unittest.main()
