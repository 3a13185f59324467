"""The commands around the program, each answered by a module of its own.

usage: python3 -I -B scripts COMMAND ..
"""
from __future__ import annotations

import importlib
import sys

from common.command import USAGE, complain, run
from common.commands import COMMANDS


def main(words: list[str]) -> int:
    if not words or words[0] not in COMMANDS:
        complain(f"usage: python3 scripts COMMAND .., and COMMAND is one of {', '.join(COMMANDS)}")
        return USAGE
    return run(words[0], lambda: importlib.import_module(COMMANDS[words[0]].module), words[1:])


if __name__ == "__main__":
    sys.exit(main(sys.argv[1:]))
