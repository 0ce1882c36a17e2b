#!/usr/bin/env python3
"""Settings as deep as `toml` reads them: what a call of the library needs most stack for.

    deep.py SHAPE

SHAPE is `tables`, arrays of tables 80 deep, and in the last one inline tables 80 deep, each behind a key of 80 parts; `refused`, the same with a
line behind it that is none; `arrays`, arrays 80 deep; `keys`, a key of 80 parts below a heading of 80 parts."""

import sys

# The greatest depth of values, and the most parts of a key.
MOST = 80


def dotted(parts: int) -> str:
    return ".".join("a" * parts)


def tables() -> str:
    headings = "".join(f"[[{dotted(parts)}]]\n" for parts in range(1, MOST + 1))
    key = dotted(MOST)
    return f"{headings}{key} = {f'{{{key}=' * MOST}1{'}' * MOST}\n"


def main(shape: str) -> None:
    key = dotted(MOST)
    texts = {
        "tables": tables(),
        "refused": f"{tables()}?\n",
        "arrays": f"a = {'[' * MOST}{']' * MOST}\n",
        "keys": f"[{key}]\n{key} = 1\n",
    }
    sys.stdout.write(texts[shape])


if __name__ == "__main__":
    main(*sys.argv[1:])
