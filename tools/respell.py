#!/usr/bin/env python3
"""Respells the repository's own definitions and lemmas: words in snake case, facts and types in camel case.

Run once at the top of the repository, behind the toolchain's own script. tools/respell.tsv has a line for each name, the
old spelling, a tab and the new one. A name counts as a whole only, so that names which Rattle makes stay as they are.
"""

import pathlib
import re

TOKEN = re.compile(r"[A-Za-z_][\w'-]*")


def main():
    here = pathlib.Path(__file__).resolve().parent
    names = dict(line.split("\t") for line in (here / "respell.tsv").read_text().splitlines())
    for path in sorted(pathlib.Path("crates").rglob("*")):
        if path.suffix not in (".antt", ".rt"):
            continue
        old = path.read_text()
        new = TOKEN.sub(lambda m: names.get(m[0], m[0]), old)
        if new != old:
            path.write_text(new)


main()
