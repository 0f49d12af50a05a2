#!/usr/bin/env python3
"""Fresh lines for the console, for comparing the program with the reference.

    python3 tools/reference/random_lines.py [--level NAME] SEED COUNT
    python3 tools/reference/random_lines.py [--level NAME] --histories SEED COUNT

The first prints COUNT lines of a script, the second whole histories of honest worlds (traffic.py) that have
about COUNT lines together: those that check.py checks with the same SEED and COUNT. The same level, SEED and
COUNT give the same lines. The level says which calls they have (levels.py); histories have all of them unless
it is given.
"""

from __future__ import annotations

import importlib
import sys
from pathlib import Path
from typing import Callable, Iterator, Optional

sys.path.insert(0, str(Path(__file__).resolve().parent))

import levels  # noqa: E402
import packet_texts  # noqa: E402
import texts  # noqa: E402
from dice import Dice  # noqa: E402
from texts import word_for  # noqa: E402
from values import KINDS  # noqa: E402

NO_TYPES = (b"Nil", b"bo", b"BO", b"Ush", b"USH", b"Int", b"S", b"\\x42o", b"\\e", b"0", b"value")
BAD_WORDS = (b"\\", b"\\\\", b"\\x", b"\\x4", b"\\x4g", b"\\xC3", b"\\X41", b"\\n", b"\\0", b"a\\e",
             b"\\ea", b"\\e\\e", b"\\E", b"\t", b"\r", b"\x00", b"\x7f", b"\xc3\xa9", b"\xff", b"a\x1fb")
NO_CALLS = (b"valu", b"values", b"Value", b"VALUE", b"val", b"#value", b"\\x76alue", b"value\t", b"none")


def value_line(dice: Dice) -> list[bytes]:
    kind, text = texts.some_value(dice)
    return [b"value", kind.encode(), word_for(dice, text)]


def packet_line(dice: Dice) -> list[bytes]:
    return [b"packet", word_for(dice, packet_texts.some_packet(dice))]


def odd_line(dice: Dice) -> list[bytes]:
    """The words of a line that is mostly not understood."""
    words = value_line(dice)
    style = dice.below(9)
    if style == 0:
        return words[: dice.below(3)]
    if style == 1:
        return words + [dice.pick((b"x", b"\\e", words[2]))]
    if style == 2:
        return [words[0], dice.pick(NO_TYPES), words[2]]
    if style == 3:
        return [words[0], words[1], dice.pick(BAD_WORDS)]
    if style == 4:
        return [words[0], words[1], words[2] + dice.pick(BAD_WORDS)]
    if style == 5:
        return [dice.pick(NO_CALLS), words[1], words[2]]
    if style == 6:
        return [words[0], words[2], words[1]]
    if style == 7:
        return [dice.bytes(dice.between(0, 12)).replace(b"\n", b"\r")]
    return [b"#"] + words


def odd_packet_line(dice: Dice) -> list[bytes]:
    """The words of a line about a packet that is mostly not understood."""
    words = packet_line(dice)
    style = dice.below(5)
    if style == 0:
        return words[:1]
    if style == 1:
        return words + [dice.pick((b"x", b"\\e", words[1]))]
    if style == 2:
        return [words[0], words[1] + dice.pick(BAD_WORDS)]
    if style == 3:
        return [dice.pick((b"packe", b"packets", b"Packet", b"packet\t", b"value", b"\\x70acket")), words[1]]
    return [words[0], dice.pick(BAD_WORDS)]


def spaced(dice: Dice, words: list[bytes]) -> bytes:
    """The line of these words, at times with more spaces than it needs."""
    if not dice.once_in(30):
        return b" ".join(words)
    spaces = (b" ", b"  ", b"     ")
    text = b"".join(word + dice.pick(spaces) for word in words)
    return dice.pick((b"",) + spaces) + text if dice.once_in(2) else text.rstrip(b" ")


def about_values(dice: Dice) -> Iterator[bytes]:
    while True:
        words = odd_line(dice) if dice.once_in(40) else value_line(dice)
        yield spaced(dice, words)


def about_packets(dice: Dice) -> Iterator[bytes]:
    """Mostly packets, and values now and then."""
    others = about_values(dice)
    while True:
        if dice.once_in(6):
            yield next(others)
        else:
            yield spaced(dice, odd_packet_line(dice) if dice.once_in(40) else packet_line(dice))


def about_stations(level: str) -> Callable[[Dice], Iterator[bytes]]:
    """Scripts of stations at this level, with packets and values between."""
    mischief = importlib.import_module("mischief")

    def mixed(dice: Dice) -> Iterator[bytes]:
        others = about_packets(dice)
        for line in mischief.lines_without_end(dice, level):
            if dice.once_in(12):
                yield next(others)
            yield line

    return mixed


def source(level: str) -> Callable[[Dice], Iterator[bytes]]:
    """Where the lines of a level come from."""
    return {"values": about_values, "packets": about_packets}.get(level) or about_stations(level)


def script(seed: int, count: int, level: Optional[str] = None) -> bytes:
    fresh = source(levels.or_present(level))(Dice(seed))
    return b"".join(next(fresh) + b"\n" for _ in range(count))


def histories(seed: int, count: int, level: str = "all") -> bytes:
    """Whole histories, each with its seed in front."""
    traffic = importlib.import_module("traffic")
    result = []
    for each, world in traffic.histories(seed, count, level):
        result += [b"# history %d" % each] + world.script
    return b"".join(line + b"\n" for line in result)


def main() -> None:
    whole = "--histories" in sys.argv
    words = [word for word in sys.argv[1:] if word != "--histories"]
    level, rest = levels.chosen(words, "all" if whole else levels.DEFAULT)
    if len(rest) != 2:
        sys.exit("usage: random_lines.py [--level NAME] [--histories] SEED COUNT")
    make = histories if whole else script
    sys.stdout.buffer.write(make(int(rest[0]), int(rest[1]), level))


if __name__ == "__main__":
    assert set(texts.WEIGHTS) == set(KINDS)
    main()
