"""How far a call has come: the octets of the recording that were read, as a bar or told to a function."""

import sys
from collections.abc import Callable, Iterator
from contextlib import contextmanager
from typing import Any

from .values import module

Progress = bool | Callable[[int, int | None], object]
Show = Callable[[int], object]

SECONDS = 0.1  # between two looks


@contextmanager
def showing(progress: Progress, length: int | None) -> Iterator[Show | None]:
    """What shows how many octets were read, of so many; None where nobody is to see it."""
    if callable(progress):
        told = progress
        yield lambda done: told(done, length)
    elif progress and is_seen():
        bar = bar_of(length)
        try:
            yield lambda done: bar.update(done - bar.n)
        finally:
            bar.close()
    else:
        yield None


def is_seen() -> bool:
    """Whether standard error is a terminal, or shown by a notebook."""
    return is_notebook() or sys.stderr is not None and sys.stderr.isatty()


def is_notebook() -> bool:
    shell = getattr(sys.modules.get("IPython"), "get_ipython", lambda: None)()
    return type(shell).__name__ == "ZMQInteractiveShell"


def bar_of(length: int | None) -> Any:
    """A bar of tqdm where that is there, else one of our own."""
    if module("tqdm") is None:
        return Bar(length)
    bars = module("tqdm.notebook" if is_notebook() and module("ipywidgets") else "tqdm")
    return bars.tqdm(total=length, unit="B", unit_scale=True)


class Bar:
    """A line that is written over and over."""

    def __init__(self, length: int | None) -> None:
        self.length = length
        self.n = 0

    def update(self, more: int) -> None:
        self.n += more
        done = f"{self.n / 1e6:,.1f}"
        share = "" if not self.length else f" of {self.length / 1e6:,.1f}"
        percent = "" if not self.length else f"{self.n / self.length:4.0%}  "
        print(f"\r{percent}{done}{share} MB", end="", file=sys.stderr, flush=True)

    def close(self) -> None:
        print(file=sys.stderr)
