"""A small generator of pseudo-random numbers, so that a given seed gives the same numbers everywhere.

It is SplitMix64 (Steele, Lea and Flood, 2014). Python's own generator is not used because the methods
above its core may change from one version of Python to the next.
"""

from __future__ import annotations

from typing import Sequence, TypeVar

MASK = (1 << 64) - 1

T = TypeVar("T")


class Dice:
    def __init__(self, seed: int) -> None:
        self.state = seed & MASK

    def word(self) -> int:
        """The next 64 bits."""
        self.state = (self.state + 0x9E3779B97F4A7C15) & MASK
        z = self.state
        z = ((z ^ (z >> 30)) * 0xBF58476D1CE4E5B9) & MASK
        z = ((z ^ (z >> 27)) * 0x94D049BB133111EB) & MASK
        return z ^ (z >> 31)

    def below(self, count: int) -> int:
        """A number from 0 to count - 1."""
        return self.word() % count

    def between(self, least: int, greatest: int) -> int:
        """A number from least to greatest, both included."""
        return least + self.below(greatest - least + 1)

    def pick(self, choices: Sequence[T]) -> T:
        return choices[self.below(len(choices))]

    def once_in(self, count: int) -> bool:
        return self.below(count) == 0

    def bytes(self, count: int) -> bytes:
        return bytes(self.below(256) for _ in range(count))

    def digits(self, count: int) -> bytes:
        return bytes(0x30 + self.below(10) for _ in range(count))
