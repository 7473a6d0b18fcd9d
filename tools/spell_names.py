#!/usr/bin/env python3
"""Spells this repository's own definitions and lemmas as its names.tsv says: words in snake case, facts and types in camel case.

usage: python3 tools/spell_names.py [FOLDER]     the repository's top; the default is the folder above this one

Run once, after the kit's port.py. The kit's own script does the turning; functions of src/, strings and outputs keep their names.
"""

import os
import subprocess
import sys

HERE = os.path.dirname(os.path.realpath(__file__))
TURN = "/opt/rattle/port/notes/2026-11-18-names-are-in-snake-case/snake.py"


def main():
    top = sys.argv[1] if len(sys.argv) > 1 else os.path.dirname(HERE)
    where = [os.path.join(top, it) for it in ("crates", "docs", "README.md") if os.path.exists(os.path.join(top, it))]
    table = os.path.join(HERE, "names.tsv")
    return subprocess.run([sys.executable, TURN, "--table", table, "--only", "antt,rt,md", *where]).returncode


if __name__ == "__main__":
    sys.exit(main())
