"""The command sfi-corpus: command.py."""
import sys

from .command import main

sys.exit(main())
