#!/usr/bin/env python3
"""Makes bindings/node/sfi_run.wasm, the crate sfi_run for node, by tools/wasm_module.py, which wants the toolchain.

    tools/build_node.py
"""
import os
import sys

TOP = os.path.dirname(os.path.dirname(os.path.abspath(__file__)))
MODULE = os.path.join(TOP, "bindings", "node", "sfi_run.wasm")
sys.dont_write_bytecode = True
import wasm_module


def main(words):
    if words:
        sys.exit("usage: tools/build_node.py")
    wasm_module.make(MODULE, ["sfi_run"])
    print(f"{os.path.relpath(MODULE, TOP)}: {os.path.getsize(MODULE)} bytes")


if __name__ == "__main__":
    main(sys.argv[1:])
