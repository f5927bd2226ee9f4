"""The command sfi-check: command.py."""
import sys

from .command import main

sys.exit(main())
