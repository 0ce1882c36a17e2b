"""Warnings of answers that are empty."""

import os
import re
import sys
import warnings
from collections.abc import Collection
from contextlib import suppress
from contextvars import ContextVar

from .errors import TmxWarning
from .loss_map import listed
from .runs import Runs
from .settings import Settings
from .source import Source
from .summary import no_record

HERE = os.path.dirname(__file__)
KEPT: ContextVar[list[str] | None] = ContextVar("KEPT", default=None)  # warnings that are kept
NOTHING_GOOD = re.compile(r"no good frame|: packed by |\b0 good\b")  # in what the program says behind a run


def warn(text: str, source: Source | None = None) -> None:
    """Warns at the line outside of this package that has called.  A thread of this package keeps it for that.

    The name of the recording stands before the text, where it has one.
    """
    name = None if source is None else source.name
    if name is not None and f"{name}: " not in text:
        text = f"{name}: {text}"
    if (kept := KEPT.get()) is not None:
        kept.append(text)
        return
    level, frame = 1, sys._getframe()
    while frame.f_back is not None and os.path.dirname(frame.f_code.co_filename) == HERE:
        level, frame = level + 1, frame.f_back
    warnings.warn(text, TmxWarning, stacklevel=level)


def warn_of_nothing(runs: Runs, settings: Settings | str | os.PathLike[str], came: bool = True) -> bool:
    """Warns where runs that were read to their end had no good frame, or none of a channel of the settings.  Whether it did.

    The program says so of them.  Without that it is known where no good frame `came`.
    """
    text = next((it for it in runs.notes() if NOTHING_GOOD.search(it)), None if came else "no good frame")
    octets, known = runs.source.octets(), settings_of(settings)
    if known is not None and octets is not None and octets < known.record_length:
        text = no_record(octets)
    if text is not None:
        warn(text, runs.source)
    return text is not None


def settings_of(settings: Settings | str | os.PathLike[str]) -> Settings | None:
    """Settings that the program has taken; None where Python can't read their file: that of a pipe, or TOML 1.1."""
    if isinstance(settings, Settings):
        return settings
    with suppress(ValueError):
        return Settings.read(settings) if os.path.isfile(settings) else None
    return None


def numbered(word: str, numbers: Collection[int | str]) -> str:
    """A word and its numbers."""
    return f"{word}{'s' * (len(numbers) > 1)} {listed(map(int, numbers), 'and')}"
