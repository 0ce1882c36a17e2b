"""Tables of several applications at once: a run of the program for each, side by side."""

import os
from collections.abc import Callable, Sequence
from concurrent.futures import ThreadPoolExecutor
from contextlib import ExitStack, suppress
from typing import IO

from .fields import Fields
from .notes import KEPT, warn
from .runs import widen
from .source import Source

Read = Callable[[IO[bytes] | None], Fields]  # reads a table from a stream, or without one from the recording itself


def side_by_side(source: Source, reads: Sequence[Read]) -> list[Fields]:
    """What all of these read, each in a thread.  A stream is fed to them block by block.  Raises the first error of any."""
    warnings: list[str] = []
    with ThreadPoolExecutor(max(1, len(reads))) as threads, ExitStack() as pipes:
        given: list[IO[bytes] | None] = [None] * len(reads)
        written: list[int] = []
        if source.is_stream:
            for number in range(len(reads)):
                output, pipe = os.pipe()
                widen(pipe)
                given[number] = open(output, "rb")
                written.append(pipe)
                pipes.callback(os.close, pipe)
        found = [threads.submit(read_quietly, *it, warnings) for it in zip(reads, given)]
        if source.is_stream:
            feed(source, written)
    tables = [it.result() for it in found]
    for text in dict.fromkeys(warnings):
        warn(text)
    return tables


def read_quietly(read: Read, given: IO[bytes] | None, warnings: list[str]) -> Fields:
    """Reads a table, and keeps what it warns of."""
    KEPT.set(warnings)
    if given is None:
        return read(None)
    with given:
        return read(given)


def feed(source: Source, pipes: list[int]) -> None:
    """Writes a stream to all pipes, until nobody reads one of them any more: its reader says why."""
    source.open_stream()
    try:
        while block := source.read_block():
            for pipe in pipes:
                if not write_all(pipe, block):
                    return
    finally:
        source.close()


def write_all(pipe: int, octets: bytes) -> bool:
    """Whether somebody reads them."""
    left = memoryview(octets)
    with suppress(BrokenPipeError):
        while left:
            left = left[os.write(pipe, left) :]
    return not left
