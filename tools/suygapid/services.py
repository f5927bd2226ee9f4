"""The gates that any program may call, by the service that each asks for: the functions of examples/c/gates.h, in the order of
their services' numbers. docs/GATES.md has what they do."""
import os
import re

from suygapid import TOP

with open(os.path.join(TOP, "examples", "c", "gates.h"), encoding="utf-8") as file:
    GATES = {name: service for service, name in enumerate(re.findall(r"^[^ ].*\b(\w+)\(.*\);$", file.read(), re.M))}
SERVICES = [name.partition("_")[0] for name in GATES]  # the console's names: `exit` of exit_with
