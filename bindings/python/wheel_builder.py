"""Makes the wheel that `pip install` installs: the packages with their shared libraries, so that it needs neither the
repository nor the network any more. It is a build backend without requirements of its own (PEP 517)."""
import base64
import hashlib
import pathlib
import re
import sys
import zipfile

HERE = pathlib.Path(__file__).resolve().parent
sys.dont_write_bytecode = True
import sfi_check._built
import sfi_check._library
import sfi_run._library

PACKAGES = {"sfi_run": sfi_run._library, "sfi_check": sfi_check._library}
COMMANDS = "[console_scripts]\nsfi-check = sfi_check.command:main\nsfi-corpus = sfi_check.corpus.command:main\n"
ALWAYS = (1980, 1, 1, 0, 0, 0)  # the time of each file: the same files make the same wheel
OLDEST = 34  # the oldest glibc 2 that it is for: systems of its age want the processors that the library does, x86-64-v2


def stated(name):
    """A value of the table [project] in pyproject.toml."""
    text = (HERE / "pyproject.toml").read_text(encoding="utf-8")
    return re.search(rf'^{name} = "(.*)"$', text, re.MULTILINE)[1]


def metadata():
    words = {"Metadata-Version": "2.1", "Name": stated("name"), "Version": stated("version"),
             "Summary": stated("description"), "Requires-Python": stated("requires-python"), "Classifier": "Typing :: Typed",
             "Description-Content-Type": "text/markdown"}
    return "".join(f"{name}: {value}\n" for name, value in words.items()) + "\n" + (HERE / "README.md").read_text(encoding="utf-8")


def library_of(package):
    """The bytes of a package's shared library."""
    library = PACKAGES[package]
    found = next((pathlib.Path(it) for it in library.places() if pathlib.Path(it).is_file()), None)
    if found is None:
        variable = library.NAME[3:-3].upper() + "_LIBRARY"
        raise SystemExit(f"{library.NAME} isn't found: {variable} has to name it, or ./install to have installed it")
    return found.read_bytes()


def files():
    """The bytes of each file of the packages, by its place in the wheel."""
    found = {}
    for package, library in PACKAGES.items():
        paths = sorted(it for it in (HERE / package).rglob("*") if it.name.endswith((".py", "py.typed")))
        found.update((it.relative_to(HERE).as_posix(), it.read_bytes()) for it in paths)
        found[f"{package}/{library.NAME}"] = library_of(package)
    return {**found, f"sfi_check/{sfi_check._built.FILE}": sfi_check._built.noted().encode()}


def tag(libraries):
    """For which Pythons and machines the wheel is (PEP 600): the libraries want the newest glibc whose symbols they name."""
    newest = max(OLDEST, *map(int, re.findall(rb"GLIBC_2\.(\d+)", libraries)))
    return f"py3-none-manylinux_2_{newest}_x86_64"


def row(place, data):
    """A row of the wheel's RECORD."""
    digest = base64.urlsafe_b64encode(hashlib.sha256(data).digest()).rstrip(b"=").decode()
    return f"{place},sha256={digest},{len(data)}\n"


def build_wheel(wheel_directory, config_settings=None, metadata_directory=None):
    """The hook that pip calls."""
    name = f"{stated('name').replace('-', '_')}-{stated('version')}"
    about = f"{name}.dist-info"
    made = files()
    machine = tag(b"".join(made[f"{package}/{library.NAME}"] for package, library in PACKAGES.items()))
    made[f"{about}/METADATA"] = metadata().encode()
    made[f"{about}/entry_points.txt"] = COMMANDS.encode()
    made[f"{about}/WHEEL"] = f"Wheel-Version: 1.0\nGenerator: wheel_builder\nRoot-Is-Purelib: false\nTag: {machine}\n".encode()
    rows = "".join(row(*it) for it in made.items()) + f"{about}/RECORD,,\n"
    made[f"{about}/RECORD"] = rows.encode()
    wheel = f"{name}-{machine}.whl"
    with zipfile.ZipFile(pathlib.Path(wheel_directory) / wheel, "w", zipfile.ZIP_DEFLATED) as archive:
        for place, data in made.items():
            entry = zipfile.ZipInfo(place, ALWAYS)
            entry.external_attr = 0o100644 << 16
            entry.compress_type = zipfile.ZIP_DEFLATED
            archive.writestr(entry, data)
    return wheel
