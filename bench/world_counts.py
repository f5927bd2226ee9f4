#!/usr/bin/env python3
"""What worlds take from a host in C, as counts that no other work on the machine changes: bytes of malloc, and x86 instructions by
callgrind.

    bench/world_counts.py [--peers] [--library LIBRARY] [--program SFI]

Prints the bytes of a world, the instructions of a load and what each byte of code and of data adds to both, the same of an instance
of a module beside the module, and the instructions of a call with its reply, of 1 KiB in and out, and of a reset. The smallest image
has 256 bytes of code and of data. With --peers it prints times, too, beside those of node's WebAssembly and wabt's wasm-interp
where they are (and wat2wasm). The library is built by (cd crates/sfi_run && rt lib), the program by ./sfi check; it wants gcc with
glibc 2.33 or newer, and valgrind.
"""
import argparse
import os
import shutil
import subprocess
import sys
import tempfile

TOP = os.path.dirname(os.path.dirname(os.path.abspath(__file__)))
sys.dont_write_bytecode = True
sys.path.insert(0, os.path.join(TOP, "tools"))
import libraries
from suygapid.trials import measure

CODE, DATA = 65536, 65536
SOURCES = {
    "smallest": ".format 2\n.sandbox 256\n ebreak\n",
    "code": ".format 2\n.sandbox 256\n" + " nop\n" * (CODE // 8) + " ebreak\n",
    "data": f".format 2\n.sandbox {DATA}\n ebreak\n",
    "calls": ".format 2\n.sandbox 1024\n.gate post 4\nloop: call post\n j loop\n",
}


def run(*words, given=""):
    return subprocess.run([str(word) for word in words], input=given, capture_output=True, text=True, check=True)


# a module whose function calls its host in a loop, and one with three bytes of code for each instruction
CALLING = """(module (import "host" "post" (func $post (param i32 i32) (result i32)))
  (func (export "run") (param $times i32)
    (loop $again
      (drop (call $post (local.get $times) (i32.const 1)))
      (local.set $times (i32.sub (local.get $times) (i32.const 1)))
      (br_if $again (local.get $times)))))"""
INSTANCE = "(module (memory 1))"
LARGE = "(module (func (export \"run\")" + " (drop (i32.const 1))" * (CODE // 3) + "))"


class Host:
    """world_counts.c on the images, which are files of a folder."""

    def __init__(self, library, program, folder):
        self.host = os.path.join(folder, "worlds")
        self.folder = folder
        static, _ = libraries.make("sfi_run", library, folder)
        includes = [f"-I{TOP}/crates/{crate}/include" for crate in ("sfi_run", "sfi_c")]
        run("gcc", "-O2", *includes, os.path.join(measure.BENCH, "world_counts.c"), static, "-o", self.host)
        for name, source in SOURCES.items():
            measure.written(self.image(name), bytes.fromhex(run(program, "build", given=source).stdout))

    def image(self, name):
        return os.path.join(self.folder, name)

    def bytes(self, name, what="bytes"):
        """The bytes of a world of an image, as the difference of two counts of worlds."""
        found = [int(run(self.host, self.image(name), what, times, 0).stdout) for times in (40, 20)]
        return (found[0] - found[1]) / 20

    def count(self, name, what, number=0, times=40):
        """The instructions of what is done once, as the difference of two counts of times."""
        found = [measure.instructions([self.host, self.image(name), what, str(n), str(number)], os.devnull) for n in (2 * times, times)]
        return (found[0] - found[1]) / times


    def nanoseconds(self, name, what, number=0, times=20000):
        """The processor time of what is done once, as the difference of the least times of two counts of times."""
        runs = {n: ([self.host, self.image(name), what, str(n), str(number)], os.devnull) for n in (2 * times, times)}
        least = measure.leasts(runs, 5)
        return (least[2 * times] - least[times]) / times * 1e9

    def module(self, name, text):
        """The WebAssembly module of a text, which is a file of the folder."""
        with open(self.image(f"{name}.wat"), "w", encoding="ascii") as file:
            file.write(text)
        run("wat2wasm", self.image(f"{name}.wat"), "-o", self.image(f"{name}.wasm"))
        return self.image(f"{name}.wasm")


def node(module, what, times):
    """What node takes for one of what host_calls.mjs measures, or how many bytes."""
    return float(run("node", "--expose-gc", os.path.join(measure.BENCH, "host_calls.mjs"), module, what, times).stdout)


def print_peers(host):
    """Times of sfi_run, and of those of node and wasm-interp that are there."""
    code = code_size(host, "code")[0] - code_size(host, "smallest")[0]
    loads = [host.nanoseconds(name, "load", times=times) for name, times in (("code", 20), ("smallest", 2000))]
    print(f"sfi_run: a call and its reply {host.nanoseconds('calls', 'call', 1000):.0f} ns, an instance of the smallest image "
          f"{host.nanoseconds('smallest', 'instance'):.0f} ns, a load {(loads[0] - loads[1]) / code:.2f} ns for each byte of code")
    if not shutil.which("wat2wasm"):
        return
    calling, instance, large = (host.module(*each) for each in (("calling", CALLING), ("instance", INSTANCE), ("large", LARGE)))
    if shutil.which("node"):
        print(f"node {run('node', '--version').stdout.strip()}: a call from WebAssembly {node(calling, 'call', 10 ** 7):.0f} ns, an instance "
              f"{node(instance, 'instance', 2000):.0f} ns and {node(instance, 'bytes', 1000):.0f} bytes, "
              f"a load {node(large, 'load', 50) / os.path.getsize(large):.2f} ns for each byte of code")
    if shutil.which("wasm-interp"):
        words = {module: (["wasm-interp", module], os.devnull) for module in (large, instance)}
        times = measure.leasts(words, 5)
        counts = [measure.instructions(*words[module]) for module in (large, instance)]
        print(f"wasm-interp: a load {(times[large] - times[instance]) / os.path.getsize(large) * 1e9:.2f} ns and "
              f"{(counts[0] - counts[1]) / os.path.getsize(large):.0f} instructions for each byte of code")


def code_size(host, name):
    with open(host.image(name), "rb") as file:
        fields = file.read(36)[8:]
    return int.from_bytes(fields[4:8], "little"), int.from_bytes(fields[12:16], "little")


def print_making(host, what, bytes_of, count_of):
    """What it takes to make one, and what each byte of code and of data adds."""
    small, (code, data) = "smallest", code_size(host, "smallest")
    bytes_there, count = bytes_of(small), count_of(small)
    more_code, more_data = code_size(host, "code")[0] - code, code_size(host, "data")[1] - data
    print(f"{what} of the smallest image, with {code} bytes of code and {data} of data: {bytes_there:.0f} bytes, {count:.0f} instructions")
    for name, more in (("code", more_code), ("data", more_data)):
        print(f"    each byte of {name} more: {(bytes_of(name) - bytes_there) / more:.2f} bytes, "
              f"{(count_of(name) - count) / more:.2f} instructions")


def main():
    parser = argparse.ArgumentParser(description=__doc__.split("\n", maxsplit=1)[0])
    parser.add_argument("--peers", action="store_true", help="prints times beside those of node and wasm-interp")
    parser.add_argument("--library", default=libraries.built("sfi_run"))
    parser.add_argument("--program", default=os.path.join(TOP, "crates", "sfi", "out", "sfi"))
    options = parser.parse_args()
    with tempfile.TemporaryDirectory() as folder:
        host = Host(options.library, options.program, folder)
        print_making(host, "a world", host.bytes, lambda name: host.count(name, "load", times=4))
        print_making(host, "an instance, beside its module,", lambda name: host.bytes(name, "beside"),
                     lambda name: host.count(name, "instance", times=4))
        print(f"a turn to a call after its steps, and its reply: {host.count('calls', 'call', 1000, 2000):.0f} instructions")
        for what in ("read", "write"):
            print(f"1 KiB {what}: {host.count('calls', what, 1024):.0f} instructions")
        for name in ("smallest", "data"):
            size = code_size(host, name)[1]
            print(f"a reset of {size} bytes of data: {host.count(name, 'zero'):.0f} instructions")
        if options.peers:
            print_peers(host)


if __name__ == "__main__":
    main()
