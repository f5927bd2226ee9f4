"""The toolchain's own modules, for what its command rt has no words for, and the module that ./sfi is."""
import importlib.machinery
import importlib.util
import os
import subprocess
import sys

TOP = os.path.dirname(os.path.dirname(os.path.abspath(__file__)))


def module(name, file):
    """The module that a file of the toolchain's folder bin holds."""
    sys.dont_write_bytecode = True
    page = subprocess.run(["rt", "doc"], capture_output=True, text=True, check=True).stdout.strip()
    path = os.path.join(os.path.dirname(page), "bin", file)
    loader = importlib.machinery.SourceFileLoader(name, path)
    module = importlib.util.module_from_spec(importlib.util.spec_from_loader(name, loader))
    sys.modules[name] = module
    loader.exec_module(module)
    return module


def sfi():
    """The module that ./sfi is."""
    loader = importlib.machinery.SourceFileLoader("sfi_wrapper", os.path.join(TOP, "sfi"))
    module = importlib.util.module_from_spec(importlib.util.spec_from_loader("sfi_wrapper", loader))
    loader.exec_module(module)
    return module


def rtlib():
    """The module that the command rt consists of."""
    return module("rtlib", "rtlib.py")


def sharing_rt():
    """The command rt itself, which shares what is proved with the other checkouts on this machine, where it can."""
    rt = module("rt", "rt")
    if hasattr(rt, "share_work"):  # kit 13b has none yet
        rt.share_work(True)
    return rt
