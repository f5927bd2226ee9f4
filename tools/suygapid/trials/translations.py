"""What the tests of translations and of native code share: their options, what their programs read, and how they end."""
import argparse

from suygapid.trials import measure

INPUT = "00ff10203040506070809a0b0c0d0e0f11"


def options(description, **more):
    """Those that the script is called with. More are paths, by their names."""
    parser = argparse.ArgumentParser(description=description, formatter_class=argparse.RawDescriptionHelpFormatter)
    parser.add_argument("--program", default=measure.PROGRAM, help="the program sfi")
    parser.add_argument("--images", type=int, default=12, help="how many random images (12)")
    parser.add_argument("--seed", type=int, default=0, help="of the random images (0)")
    for name, path in more.items():
        parser.add_argument(f"--{name}", default=path)
    return parser.parse_args()


def ended(tried, skipped=0):
    """Prints what failed of what was tried, each with whether it is right, and the last line. The status."""
    failures = [what for what, is_right in tried if not is_right]
    for what in failures:
        print(f"FAILED {what}")
    print(f"{len(tried) - len(failures)} passed, {len(failures)} failed" + (f", {skipped} skipped" if skipped else ""))
    return 1 if failures else 0
