"""Variable stores: what a box keeps its elements in, and the two ways to write to one by a text.

Written from docs/PROTOCOL.md, section 4 and section 5.3, and from nothing else.
"""

from __future__ import annotations

from typing import Iterable, NamedTuple, Optional, Sequence

import values
from packets import DONE, GREATEST_INDEX, NOT_FOUND, OUTSIDE, WRONG_TYPE
from refusals import LIMIT, Refused
from values import Value

MOST_ELEMENTS = 256

FIRST_STAR_INDEX = 100
INDICES_PER_STAR = 3
MOST_STARS = 20_000
FULL_CIRCLE = 1_296_000_000
POLE = 324_000_000


class Element(NamedTuple):
    """What stands at an index. Its type is the type of its value."""

    value: Value
    fixed: bool


class Store:
    """A store, by three questions and a write that each kind of store has for itself; the rest follows from them."""

    def limits(self) -> tuple[int, int]:
        """The lowest and the highest index."""
        raise NotImplementedError

    def element(self, index: int) -> Optional[Element]:
        """The element at an index, or None."""
        raise NotImplementedError

    def indices(self) -> Sequence[int]:
        """The indices of all elements, in order."""
        raise NotImplementedError

    def replace(self, index: int, value: Value) -> None:
        """Gives another value to an element that is there and not fixed."""
        raise NotImplementedError

    def reaches(self, index: int) -> bool:
        """Whether the index lies from the lowest to the highest."""
        low, high = self.limits()
        return low <= index <= high

    def kind_at(self, index: int) -> Optional[str]:
        """The type of the element at an index, or None if there is none."""
        element = self.element(index)
        return None if element is None else element.value.kind

    def read(self, index: int) -> tuple[int, Optional[Value]]:
        """The code and, with code 0, the value."""
        if not self.reaches(index):
            return OUTSIDE, None
        element = self.element(index)
        return (NOT_FOUND, None) if element is None else (DONE, element.value)

    def write(self, index: int, value: Value) -> int:
        """The code. With code 0 the element has the value; with another code nothing has changed."""
        if not self.reaches(index):
            return OUTSIDE
        element = self.element(index)
        if element is None:
            return NOT_FOUND
        if element.fixed or element.value.kind != value.kind:
            return WRONG_TYPE
        self.replace(index, value)
        return DONE


def read_or_refuse(kind: str, text: bytes) -> Value:
    """The value that a text means as this type. Refused by 13 if it is not read."""
    value = values.read(kind, text)
    if value is None:
        raise Refused(LIMIT)
    return value


class Item(NamedTuple):
    """What is handed in for an element of a shelf."""

    index: int
    kind: str
    text: bytes
    fixed: bool = False


class Shelf(Store):
    """A list of elements between two limits (section 4.3)."""

    def __init__(self, low: int, high: int, items: Sequence[Item]) -> None:
        if not (0 <= low <= high <= GREATEST_INDEX and 1 <= len(items) <= MOST_ELEMENTS):
            raise Refused(LIMIT)
        self.low, self.high = low, high
        self.elements: dict[int, Element] = {}
        before = -1
        for index, kind, text, fixed in items:
            if not (low <= index <= high and before < index):
                raise Refused(LIMIT)
            self.elements[index] = Element(read_or_refuse(kind, text), fixed)
            before = index

    def limits(self) -> tuple[int, int]:
        return self.low, self.high

    def element(self, index: int) -> Optional[Element]:
        return self.elements.get(index)

    def indices(self) -> Sequence[int]:
        return list(self.elements)

    def replace(self, index: int, value: Value) -> None:
        self.elements[index] = self.elements[index]._replace(value=value)


class HouseRecord(Store):
    """What a station says about itself (section 4.4)."""

    def __init__(self, serial: bytes, identifier: bytes) -> None:
        zero = read_or_refuse("By", b"0")
        contents = (zero, read_or_refuse("St", serial), read_or_refuse("St", identifier), zero)
        self.elements = [Element(value, fixed=True) for value in contents]

    def limits(self) -> tuple[int, int]:
        return 0, 99

    def element(self, index: int) -> Optional[Element]:
        return self.elements[index] if index < len(self.elements) else None

    def indices(self) -> Sequence[int]:
        return range(len(self.elements))


class Star(NamedTuple):
    """A name, and right ascension and declination in milliarcseconds."""

    name: bytes
    right_ascension: int
    declination: int


class StarRows(Store):
    """Three fixed elements for each star, worked out when they are asked for (section 4.5)."""

    def __init__(self, stars: Sequence[Star]) -> None:
        if not 1 <= len(stars) <= MOST_STARS:
            raise Refused(LIMIT)
        for star in stars:
            check_star(star)
        self.stars = list(stars)

    def limits(self) -> tuple[int, int]:
        return FIRST_STAR_INDEX, FIRST_STAR_INDEX + INDICES_PER_STAR * len(self.stars) - 1

    def element(self, index: int) -> Optional[Element]:
        if not self.reaches(index):
            return None
        row, column = divmod(index - FIRST_STAR_INDEX, INDICES_PER_STAR)
        content = self.stars[row][column]
        return Element(Value("St" if column == 0 else "In", content), fixed=True)

    def indices(self) -> Sequence[int]:
        low, high = self.limits()
        return range(low, high + 1)


def check_star(star: Star) -> None:
    """Refuses by 13 a name that is no St, and an angle outside its range."""
    read_or_refuse("St", star.name)
    if not (0 <= star.right_ascension < FULL_CIRCLE and -POLE <= star.declination <= POLE):
        raise Refused(LIMIT)


class Joined(Store):
    """Two stores put together, the lower one first (section 4.6)."""

    def __init__(self, lower: Store, upper: Store) -> None:
        if lower.limits()[1] >= upper.limits()[0]:
            raise Refused(LIMIT)
        self.lower, self.upper = lower, upper

    def limits(self) -> tuple[int, int]:
        return self.lower.limits()[0], self.upper.limits()[1]

    def part(self, index: int) -> Optional[Store]:
        """The one of the two that the index lies in, or None in a gap or outside."""
        return next((store for store in (self.lower, self.upper) if store.reaches(index)), None)

    def element(self, index: int) -> Optional[Element]:
        part = self.part(index)
        return None if part is None else part.element(index)

    def indices(self) -> Sequence[int]:
        return [*self.lower.indices(), *self.upper.indices()]

    def replace(self, index: int, value: Value) -> None:
        self.part(index).replace(index, value)


def joined(stores: Iterable[Store]) -> Store:
    """Several stores put together, the lowest one first."""
    first, *others = stores
    for store in others:
        first = Joined(first, store)
    return first


def contents(store: Store) -> dict[int, Element]:
    """All elements of a store, each at its index."""
    return {index: store.element(index) for index in store.indices()}


def write_text(store: Store, index: int, text: bytes) -> int:
    """Writes what the text means as the type of the element there (section 5.3). Tells the code."""
    if not store.reaches(index):
        return OUTSIDE
    kind = store.kind_at(index)
    if kind is None:
        return NOT_FOUND
    value = values.read(kind, text)
    return WRONG_TYPE if value is None else store.write(index, value)


def owner_write(store: Store, index: int, kind: str, text: bytes) -> int:
    """Writes what the text means as the type named (section 4.7). Tells the code."""
    if not store.reaches(index):
        return OUTSIDE
    if store.kind_at(index) is None:
        return NOT_FOUND
    value = values.read(kind, text)
    return WRONG_TYPE if value is None else store.write(index, value)
