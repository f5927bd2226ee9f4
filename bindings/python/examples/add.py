#!/usr/bin/env python3
"""Calls a function of a plug-in by its name: add.py IMAGE"""
import sys

from sfi_run.names import Plugin

with open(sys.argv[1], "rb") as file, Plugin(file.read()) as plugin:
    print(plugin.add(2, 3))
