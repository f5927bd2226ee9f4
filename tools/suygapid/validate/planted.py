"""Runs the converter with a mistake planted in one of its modules: `-m suygapid.validate.planted MODULE OLD NEW INPUT FORMAT OUTPUT ..`, with a
format and an output for each way: `2-movable` is the second format of a program that can be moved. test_validate.py uses it."""
import os
import sys
from importlib.machinery import PathFinder, SourceFileLoader


class Planted(SourceFileLoader):
    """Loads a module with another text in the place of a part of it, without its compiled form."""
    old = new = ""

    def path_stats(self, path):
        raise OSError

    def get_data(self, path):
        text = super().get_data(path).decode()
        if self.old not in text:
            raise SystemExit(f"{path} has no {self.old!r}")
        return text.replace(self.old, self.new).encode()


class Finder(PathFinder):
    """Finds the module that has the mistake."""
    module = ""

    @classmethod
    def find_spec(cls, fullname, path=None, target=None):
        spec = super().find_spec(fullname, path, target) if fullname == cls.module else None
        if spec is not None:
            spec.loader = Planted(spec.loader.name, spec.loader.path)
        return spec


def main(module, old, new, source, *ways):
    Finder.module, Planted.old, Planted.new = f"suygapid.passes.{module}", old, new
    if module:
        sys.meta_path.insert(0, Finder)
    from suygapid.passes.improving import PASSES  # pylint: disable=import-outside-toplevel
    from suygapid.passes.rewriting import rewritten  # pylint: disable=import-outside-toplevel
    with open(source, encoding="utf-8") as file:
        text = file.read()
    for way, output in zip(ways[::2], ways[1::2]):
        name, _, movable = way.partition("-")
        image_format = int(name) if name.isdigit() else name
        with open(output, "w", encoding="utf-8") as file:
            file.write(rewritten(os.path.basename(source), text, PASSES, image_format, bool(movable)))


if __name__ == "__main__":
    main(*sys.argv[1:])
