"""sfi-check, a command of the package sfi_check: bindings/python/sfi_check/command.py."""
from sfi_check.command import main

__all__ = ["main"]
