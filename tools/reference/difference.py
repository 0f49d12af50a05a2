#!/usr/bin/env python3
"""Shows the first place where two runs of a script differ.

    python3 tools/reference/difference.py SCRIPT PROGRAM_OUTPUT REFERENCE_OUTPUT

Ends with status 1 if there is one. If the line is a call to a station, the calls to it just before are shown
too. Bytes outside plain ASCII are shown as escapes.
"""

from __future__ import annotations

import sys
from itertools import zip_longest
from pathlib import Path

sys.path.insert(0, str(Path(__file__).resolve().parent))

import lines  # noqa: E402

# How many earlier calls to the same station are shown, and how much of a line.
MOST_EARLIER = 8
MOST_SHOWN = 1200

STATELESS = (b"value", b"packet")


def shown(line: bytes | None) -> str:
    if line is None:
        return "(no line)"
    text = "".join(chr(b) if 0x20 <= b <= 0x7E else f"<{b:02x}>" for b in line[:MOST_SHOWN])
    return text if len(line) <= MOST_SHOWN else f"{text} ... ({len(line)} bytes)"


def station_of(line: bytes) -> bytes | None:
    """The word that names the station of a call, or None."""
    words = lines.words_of(line)
    return None if len(words) < 2 or words[0] in STATELESS else words[1]


def show_earlier(earlier: list[tuple[int, bytes, bytes]], line: bytes) -> None:
    """The calls to the same station, up to the line, with their answers."""
    station = station_of(line)
    before = [call for call in earlier if station is not None and station_of(call[1]) == station][-MOST_EARLIER:]
    if before:
        print("the calls to this station just before, with their answers:")
    for at, call, answer in before:
        print(f"  {at}: {shown(call)}\n      {shown(answer)}")


def main() -> int:
    script, program, reference = (Path(name).read_bytes() for name in sys.argv[1:4])
    asked = [(at, line) for at, line in enumerate(lines.lines_of(script), 1) if not lines.prints_nothing(line)]
    earlier: list[tuple[int, bytes, bytes]] = []
    for call, by_program, by_reference in zip_longest(asked, lines.lines_of(program), lines.lines_of(reference)):
        at, line = call or (len(asked) + 1, None)
        if by_program != by_reference:
            print(f"first difference at line {at} of the script:")
            print(f"  line:      {shown(line)}")
            print(f"  program:   {shown(by_program)}")
            print(f"  reference: {shown(by_reference)}")
            show_earlier(earlier, line or b"")
            return 1
        earlier.append((at, line or b"", by_reference))
    if program != reference:
        print("the outputs differ only in the end of the last line")
        return 1
    return 0


if __name__ == "__main__":
    sys.exit(main())
