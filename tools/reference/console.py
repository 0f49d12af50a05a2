#!/usr/bin/env python3
"""The console, as docs/PROTOCOL.md has it in section 7: a script on standard input, one answer a line.

    python3 tools/reference/console.py [--level NAME] < script

It is a second opinion about the program `console`, and shares no code with it. The level says which
calls are known (levels.py).
"""

from __future__ import annotations

import importlib
import sys
from pathlib import Path
from typing import Any, Callable, Optional

sys.path.insert(0, str(Path(__file__).resolve().parent))

import levels  # noqa: E402
import lines  # noqa: E402
from words import NotUnderstood  # noqa: E402

# The module that has the calls of each level.
FAMILIES = {"values": "value_calls", "packets": "packet_calls", "box": "box_calls",
            "transactions": "catalogue_calls", "catalogue": "withdraw_calls"}

Call = Callable[["Console", list[bytes]], bytes]


def calls_at(level: str) -> dict[bytes, Call]:
    """The first words of lines that are known at a level, and the calls that they name."""
    calls: dict[bytes, Call] = {}
    for family in levels.up_to(level):
        calls.update(importlib.import_module(FAMILIES[family]).CALLS)
    return calls


class Console:
    """A run of the console. The stations are kept by their addresses."""

    def __init__(self, level: Optional[str] = None) -> None:
        self.calls = calls_at(levels.or_present(level))
        self.stations: dict[int, Any] = {}

    def answer(self, line: bytes) -> Optional[bytes]:
        """What is printed for a line, or None if nothing is."""
        if lines.prints_nothing(line):
            return None
        words = lines.words_of(line)
        call = self.calls.get(words[0]) if words else None
        if call is None:
            return b"error"
        try:
            return call(self, words[1:])
        except NotUnderstood:
            return b"error"


def run(script: bytes, level: Optional[str] = None) -> bytes:
    """Everything that the console prints for a script."""
    console = Console(level)
    answers = (console.answer(line) for line in lines.lines_of(script))
    return b"".join(answer + b"\n" for answer in answers if answer is not None)


def main() -> None:
    level, rest = levels.chosen(sys.argv[1:])
    if rest:
        sys.exit("usage: console.py [--level NAME] < script")
    sys.stdout.buffer.write(run(sys.stdin.buffer.read(), level))


if __name__ == "__main__":
    main()
