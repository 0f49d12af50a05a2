#!/usr/bin/env python3
"""Writes the console's sample: crates/console/stdin, and crates/console/stdout as the reference has it.

    python3 tools/reference/vectors.py [--level NAME] [FOLDER]

The files are the same each time. FOLDER is crates/console unless given. Which families of calls the sample
has is said by the level (levels.py); the lines of each family are in a module of its own.
"""

from __future__ import annotations

import importlib
import sys
from pathlib import Path
from typing import Optional

HERE = Path(__file__).resolve().parent
ROOT = HERE.parent.parent
sys.path.insert(0, str(HERE))

import console  # noqa: E402
import levels  # noqa: E402
import lines  # noqa: E402

FOLDER = ROOT / "crates" / "console"

# The module that has the lines of each level.
FAMILIES = {"values": "value_vectors", "packets": "packet_vectors", "box": "box_vectors",
            "transactions": "catalogue_vectors", "catalogue": "withdraw_vectors"}

TITLE = b"# Written by tools/reference/vectors.py: change that program, not this file."
LAST = b"value Do 1E-5"


def headed(heading: str, script_lines: list[bytes]) -> list[bytes]:
    return [b"# --- " + heading.encode()] + script_lines


def script(level: Optional[str] = None) -> bytes:
    """The sample at a level: the calls of each family, then lines about lines."""
    families = [importlib.import_module(FAMILIES[family]) for family in levels.up_to(levels.or_present(level))]
    result = [TITLE]
    for family in families:
        for heading, section in family.sections():
            result += headed(heading, section)
    result += headed("lines and words", [line for family in families for line in family.ABOUT_LINES])
    result += headed("raw bytes that no word may have", [line for family in families for line in family.RAW_LINES])
    result.append(b"# the last line has no end")
    return b"".join(line + b"\n" for line in result) + LAST


def main() -> None:
    level, rest = levels.chosen(sys.argv[1:])
    if len(rest) > 1:
        sys.exit("usage: vectors.py [--level NAME] [FOLDER]")
    folder = Path(rest[0]) if rest else FOLDER
    stdin = script(level)
    stdout = console.run(stdin, level)
    folder.mkdir(parents=True, exist_ok=True)
    (folder / "stdin").write_bytes(stdin)
    (folder / "stdout").write_bytes(stdout)
    shown = folder.relative_to(ROOT) if folder.is_relative_to(ROOT) else folder
    print(f"{len(lines.lines_of(stdin))} lines, {len(lines.lines_of(stdout))} answers, in {shown}/")


if __name__ == "__main__":
    main()
