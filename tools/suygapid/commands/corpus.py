"""sfi-corpus, a command of the package sfi_check: bindings/python/sfi_check/corpus/command.py."""
from sfi_check.corpus.command import main

__all__ = ["main"]
