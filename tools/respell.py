#!/usr/bin/env python3
"""Spells the names that this repository declares in specs/ and proofs/ as the installed Rattle spells its own.

    tools/respell.py [--check]

Words (functions, lemmas, constructors and fields) are in snake case, types and facts in camel case: `packet-of`
becomes `packet_of`, `Kept-write` becomes `KeptWrite`. Names that Rattle makes for the goals of a proof keep their
dashes. It goes over the .antt files, the clauses and comments of the .rt files, and the must-fail edits; texts in
quotes stay. With --check it writes nothing. Either way it lists the names that would fall together with another
name of the same file. A second run changes nothing more.
"""

from __future__ import annotations

import re
import sys
from pathlib import Path

ROOT = Path(__file__).resolve().parent.parent
PLAIN = r"[^\s(){}\[\].,;:⟨⟩⌜⌝\"@`|]"
TOKEN = re.compile(PLAIN + "+")
QUOTED = re.compile(r"\"(?:[^\"\\\n]|\\.)*\"")
HEADED = re.compile(rf"^(?:(?:abbrev|unfoldable|pub|private|opaque)\s+)*(?:record|data)\s+({PLAIN}+)")
NAMED = re.compile(rf"^(?:(?:abbrev|unfoldable|pub|private|opaque)\s+)*({PLAIN}+)(?:\s+[({{].*|\s*):\s")
INNER = re.compile(rf"^ +(?:(?:abbrev|unfoldable|pub|private|opaque)\s+)*({PLAIN}+)(?:\s+[({{].*|\s*):\s")


# What would meet a name of the library in one file, and its spelling.
OTHERWISE = {"put-mid": "put_middle"}


def declaring(crate: Path) -> list[Path]:
    """The files that declare names: all of specs/ and proofs/."""
    return sorted([*crate.glob("specs/**/*.antt"), *crate.glob("proofs/**/*.antt")])


def declared(text: str) -> set[str]:
    """The names that a file declares: types, words, constructors and fields, in nested modules too."""
    names: set[str] = set()
    for line in text.split("\n"):
        head = HEADED.match(line.strip())
        if head:
            names.add(head[1])
        elif line.startswith(" "):
            inner = INNER.match(line)
            if inner:
                names.add(inner[1])
        elif line:
            word = NAMED.match(line)
            if word and " goal." not in line and not line.startswith(("--", "use ", "mod ", "pub use ", "pub mod ")):
                names.add(word[1])
    return names


def respelled(name: str) -> str:
    """The spelling of a name without dashes."""
    if name in OTHERWISE:
        return OTHERWISE[name]
    parts = name.split("-")
    if name[0].isupper():
        return "".join(part[:1].upper() + part[1:] for part in parts)
    return "_".join(parts)


def table(crates: list[Path]) -> dict[str, str]:
    """The names to be spelled anew, each with its spelling."""
    names: set[str] = set()
    for crate in crates:
        for file in declaring(crate):
            names |= declared(file.read_text())
    return {name: respelled(name) for name in names if re.fullmatch(r"\w[\w'′]*(-[\w'′]+)+", name)}


def turned(text: str, names: dict[str, str]) -> str:
    """The text with each of the names spelled anew, but for what stands in quotes."""
    out, at = [], 0
    for quote in [*QUOTED.finditer(text), None]:
        end = quote.start() if quote else len(text)
        out.append(TOKEN.sub(lambda m: names.get(m[0], m[0]), text[at:end]))
        if quote:
            out.append(quote[0])
            at = quote.end()
    return "".join(out)


def together(file: Path, text: str, names: dict[str, str]) -> None:
    """Tells which names of a file would be spelled as another name that the file has already."""
    words = set(TOKEN.findall(QUOTED.sub(" ", text)))
    for old in sorted(words & set(names)):
        if names[old] in words:
            print(f"{file.relative_to(ROOT)}: {old} and {names[old]}")


def main() -> None:
    crates = sorted(it for it in (ROOT / "crates").iterdir() if it.is_dir())
    names = table(crates)
    spellings: dict[str, str] = {}
    for old, new in sorted(names.items()):
        if new in spellings:
            print(f"two names become {new}: {spellings[new]} and {old}")
        spellings[new] = old
    for crate in crates:
        files = [*crate.glob("**/*.antt"), *crate.glob("src/**/*.rt"), *crate.glob("must-fail/*.edit")]
        for file in sorted(it for it in files if "out" not in it.relative_to(crate).parts):
            text = file.read_text()
            together(file, text, names)
            new = turned(text, names)
            if new != text and "--check" not in sys.argv[1:]:
                file.write_text(new)
    print(f"{len(names)} names")


if __name__ == "__main__":
    main()
