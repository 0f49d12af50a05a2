#!/usr/bin/env python3
"""A script in which one partner has all its 65,536 transactions, and then asks for one more.

    python3 tools/reference/exhausted.py [--level NAME] > script

It has about 131,000 short lines, so it is made when it is wanted and not kept in the sample. Where the level
(levels.py) does not know withdrawing, each transaction is answered instead.
"""

from __future__ import annotations

import sys
from pathlib import Path
from typing import Iterator

sys.path.insert(0, str(Path(__file__).resolve().parent))

import levels  # noqa: E402
from catalogue_vectors import catalogue, counts, enlist, open_read, open_write, poll, receive  # noqa: E402
from packets import GREATEST_NUMBER  # noqa: E402
from withdraw_vectors import withdraw  # noqa: E402


def script_lines(level: str = "all") -> Iterator[bytes]:
    """Opening and withdrawing up to the last number, which is answered; then there is none left."""
    may_withdraw = levels.knows(levels.named(level), "catalogue")
    yield catalogue(1)
    yield from enlist(1, 9, 8)
    for number in range(GREATEST_NUMBER):
        yield open_read(1, 0, 0, 0)
        yield withdraw(1, 0) if may_withdraw else receive(1, 9, b"{1.1:A:%d:1:1:Nil:0}" % number)
    yield counts(1)
    yield open_write(1, 0, 0, *[(65535, b"a" * 40)] * 10)
    yield open_read(1, 0, 0, 0)
    yield poll(1, 1000, 0)
    yield receive(1, 9, b"{1.1:A:65534:2" + b":0" * 10 + b"}")
    yield receive(1, 9, b"{1.1:A:65535:2" + b":0" * 10 + b"}")
    yield open_read(1, 0, 0, 0)
    for indices in ((0,), (), (0,) * 11):
        yield open_read(1, 1000, 0, *indices)
    yield open_write(1, 1000, 0, (0, b"x"))
    yield open_write(1, 1000, 0, (0, b""))
    yield open_read(1, 1000, 1, 0)
    yield from [withdraw(1, 0)] if may_withdraw else []
    yield poll(1, 10**15, 0)
    yield counts(1)


def main() -> None:
    level, rest = levels.chosen(sys.argv[1:])
    if rest:
        sys.exit("usage: exhausted.py [--level NAME]")
    if not levels.knows(level, "transactions"):
        sys.exit(f"the level {level} has no catalogues, so no numbers to use up")
    sys.stdout.buffer.write(b"".join(line + b"\n" for line in script_lines(level)))


if __name__ == "__main__":
    main()
