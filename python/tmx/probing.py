"""Settings of an unknown recording, found from its octets.

A record is looked for that comes again and again: at one place of it the first octet of frames, which has the version and a
part of the spacecraft's number, stays the same, and the frame counts behind it go up by one.  Then the length of the frame
is that by which error control holds: in a fifth of the records that are tried, and in two at least.  By chance it holds in one
of 256 where a length is one off, and in one of 65,536 elsewhere.  Whatever is found so is tried by the program, whose word
is what counts.
"""

import io
import os
from binascii import crc_hqx
from collections import Counter
from collections.abc import Iterator, Sequence
from dataclasses import dataclass, replace
from tempfile import NamedTemporaryFile
from typing import IO, overload

from .lines import Frame
from .markers import cut
from .recording import Recording
from .settings import Settings
from .source import Source

SAMPLE = 4_000_000  # octets that are looked at
SECONDS = 8.0  # of processor time, in which candidates are looked for and tried
LONGEST_RECORD, LONGEST_SKIP, LEAST_FRAME, LONGEST_FRAME = 4096, 1024, 9, 2048
HEADER = 6
GROUPS, STEPS = 8, 3  # groups of records that follow each other, and how many times one follows in a group
LEAST_RECORDS = STEPS + 1
TRIED = 64  # records by which a candidate is judged
LEAST_GOOD, LEAST_WHOLE = 0.2, 0.3  # shares of good frames, and of octets in whole packets, below which settings don't fit
MOST_FITS = 3  # of one place, where there is no error control
USUAL_MARKER = bytes.fromhex("1ACFFC1D")
CHECK_SYMBOLS = (0, *(n * depth for depth in (1, 2, 3, 4, 5, 8) for n in (16, 32)))  # of Reed-Solomon codes
WHERE_ZERO = bytes(octet == 0 for octet in range(256))
PLUS = [bytes((octet + step) % 256 for octet in range(256)) for step in range(STEPS + 1)]


@dataclass(frozen=True)
class Fit:
    """Settings that fit a recording.

    settings   the settings
    records    how many records were tried, and `good` how many of them were good frames
    whole      the share of the octets of data fields that are in whole packets, 0 to 1
    marker     the octets before each frame that are always the same, if there are any
    secondary  how many of the good frames have a secondary header, and `ocf` an operational control field
    channels   the virtual channels that came
    longest    the octets of the longest packet
    cut        the words of the command that makes a recording of randomized frames that these settings fit; empty where they
               fit as it is
    """

    settings: Settings
    records: int
    good: int
    whole: float
    marker: bytes
    secondary: int
    ocf: int
    channels: tuple[int, ...]
    longest: int
    cut: str = ""

    @property
    def share(self) -> float:
        """The share of good frames, 0 to 1."""
        return self.good / self.records

    def toml(self) -> str:
        """A settings file, with what was found as comments."""
        marker = f"# each frame follows the octets {self.marker.hex().upper()}\n" if self.marker else ""
        marker += f"# frames are randomized; these settings are for what this writes:\n#   {self.cut}\n" if self.cut else ""
        return (
            f"# {self.good} of {self.records} records are good frames ({self.share:.1%});"
            f" {self.whole:.1%} of their data is in whole packets\n{marker}"
            f"# secondary headers: {self.secondary} of {self.good} frames;"
            f" operational control fields: {self.ocf} of {self.good} frames\n"
            f"# channels: {', '.join(map(str, self.channels))}; the longest packet has {self.longest} octets\n"
            f"{self.settings.toml()}"
        )


class Probe(Sequence[Fit]):
    """Settings that fit, best first; none where nothing fits.  `note` says why, or what else was seen."""

    def __init__(self, fits: Sequence[Fit], note: str) -> None:
        self.fits = list(fits)
        self.note = note

    @overload
    def __getitem__(self, at: int) -> Fit: ...

    @overload
    def __getitem__(self, at: slice) -> list[Fit]: ...

    def __getitem__(self, at: int | slice) -> Fit | list[Fit]:
        return self.fits[at]

    def __len__(self) -> int:
        return len(self.fits)

    def __str__(self) -> str:
        return "\n".join([*(it.toml() for it in self.fits), self.note]).rstrip("\n")

    __repr__ = __str__


def probe(recording: str | os.PathLike[str] | IO[bytes]) -> Probe:
    """Settings that fit a recording, best first, each with the share of good frames.

    recording  the name of a file, `-` for standard input, or a binary stream

    The first 4 MB are looked at, for eight seconds of processor time at most.  A frame has to begin in each record at the
    same place, in the first 1,025 octets; a stream with slips is cut by `cut` first.  Frames that are still randomized
    are found behind a marker.
    """
    end = processor_seconds() + SECONDS
    sample = first_octets(Source(recording))
    fits: list[Fit] = []
    headers: list[tuple[int, int]] = []
    for length, place in candidates(sample, end):
        headers.append((length, place))
        fits += fits_at(sample, length, place)
        if processor_seconds() > end or fits and fits[-1].share > 0.5:
            break
    fits = fits or randomized_fits(sample)
    fits.sort(key=lambda it: (round(it.share, 2), it.whole), reverse=True)
    return Probe(fits, "" if fits else reason_for_nothing(sample, headers))


def processor_seconds() -> float:
    """What this process and the programs that it ran have used, whatever else the machine does."""
    return sum(os.times()[:4])


def first_octets(source: Source) -> bytes:
    """The first octets of a recording."""
    source.open_stream()
    try:
        parts, left = [], SAMPLE
        while left and (block := source.read_block()):
            parts.append(block[:left])
            left -= len(parts[-1])
        return b"".join(parts)
    finally:
        source.close()


# Where frames begin.


def candidates(sample: bytes, end: float) -> Iterator[tuple[int, int]]:
    """Lengths of records, and places of frames in them, the likeliest first."""
    lengths = range(LEAST_FRAME, min(LONGEST_RECORD, len(sample) // LEAST_RECORDS) + 1)
    tried: list[tuple[float, int, int]] = []
    others: list[tuple[int, int]] = []
    for length in lengths:
        if processor_seconds() > end:
            break
        counting, constant = places(sample, length)
        tried += ((headers_share(sample, length, it), length, it) for it in counting)
        others += ((length, it) for it in constant if it not in counting)
    yield from ((length, place) for share, length, place in sorted(tried, key=by_share) if share > LEAST_GOOD)
    for length, place in others:
        if processor_seconds() > end:
            return
        if headers_share(sample, length, place) > 0.5:
            yield length, place


def by_share(tried: tuple[float, int, int]) -> tuple[float, int, int]:
    return -tried[0], tried[1], tried[2]


def places(sample: bytes, length: int) -> tuple[list[int], list[int]]:
    """Places at which frames of records of a length may begin: where a count goes up, and where the channel's count changes.

    The first octet stays the same at both.
    """
    records = len(sample) // length
    groups = max(1, min(GROUPS, records // LEAST_RECORDS))
    wide = min(length, LONGEST_SKIP + HEADER)
    counting: Counter[int] = Counter()
    constant: Counter[int] = Counter()
    for group in range(groups):
        begin = records * group // groups * length
        same, counted = differences(sample, begin, length, wide)
        still = int.from_bytes(same.to_bytes(wide, "little").translate(WHERE_ZERO), "little")
        counting.update(zeros(same | counted >> 16, wide - 3))
        counting.update(zeros(same | same >> 8 | counted >> 24, wide - 3))
        constant.update(zeros(same | still >> 24, wide - 3))
    least = min(2, groups)
    return [it for it, n in counting.items() if n >= least], [it for it, n in constant.items() if n >= least]


def differences(sample: bytes, begin: int, length: int, wide: int) -> tuple[int, int]:
    """Which of the first octets differ between records that follow each other, and which don't go up by one each time.

    Both are numbers whose octets, the least first, are 0 where that isn't so.
    """
    first = sample[begin : begin + wide]
    same = counted = 0
    for step in range(1, STEPS + 1):
        octets = int.from_bytes(sample[begin + step * length : begin + step * length + wide], "little")
        same |= int.from_bytes(first, "little") ^ octets
        counted |= int.from_bytes(first.translate(PLUS[step]), "little") ^ octets
    return same, counted


def zeros(number: int, octets: int) -> list[int]:
    """The places of a number's octets that are 0."""
    found, text = [], number.to_bytes(max(octets, (number.bit_length() + 7) // 8), "little")[:octets]
    at = text.find(0)
    while at >= 0:
        found.append(at)
        at = text.find(0, at + 1)
    return found


def headers_share(sample: bytes, length: int, place: int) -> float:
    """The share of records with the same spacecraft and version 0 whose channel's count or master count goes up by one."""
    begins = spread(len(sample) // length, 2 * TRIED)
    spacecraft = Counter(sample[it * length + place] << 4 | sample[it * length + place + 1] >> 4 for it in begins)
    usual, _ = spacecraft.most_common(1)[0]
    if usual >> 10:
        return 0.0
    last: dict[int, int] = {}
    good, master = 0, -2
    for begin in (it * length + place for it in begins):
        if sample[begin] << 4 | sample[begin + 1] >> 4 != usual:
            continue
        channel, count = sample[begin + 1] >> 1 & 7, sample[begin + 3]
        good += count == (last.get(channel, -2) + 1) % 256 or sample[begin + 2] == (master + 1) % 256
        last[channel], master = count, sample[begin + 2]
    return good / len(begins)


def spread(records: int, most: int) -> list[int]:
    """Up to so many numbers of records, in stretches of 16 over all of them."""
    if records <= most:
        return list(range(records))
    stretches = most // 16
    firsts = (records * number // stretches for number in range(stretches))
    return [first + it for first in firsts for it in range(16) if first + it < records]


# What the frames are like.


def fits_at(sample: bytes, length: int, place: int) -> list[Fit]:
    """Settings by which the program finds good frames there."""
    begins = [it * length + place for it in spread(len(sample) // length, TRIED)]
    spacecraft = Counter((sample[it] << 4 | sample[it + 1] >> 4) & 1023 for it in begins).most_common(1)[0][0]
    room = min(length - place, LONGEST_FRAME)
    by_control = length_by_error_control(sample, begins[:-1], min(length, LONGEST_FRAME))
    if by_control > room:
        return []
    frames = [by_control] if by_control else [length - place - it for it in CHECK_SYMBOLS]
    lengths = [it for it in frames if LEAST_FRAME <= it <= room and length - place - it <= LONGEST_SKIP]
    tried = [Settings(spacecraft, it, by_control > 0, place, length - place - it) for it in lengths]
    found = [it for settings in tried if (it := fit_of(sample, settings))]
    return sorted(found, key=lambda it: it.whole, reverse=True)[:MOST_FITS]


def randomized_fits(sample: bytes) -> list[Fit]:
    """Settings by which the program finds good frames behind a marker that comes again, once they are no longer randomized."""
    again = repeated_marker(sample)
    if again is None or again[1] <= len(again[0]) + LEAST_FRAME:
        return []
    marker, length = again[0], again[1] - len(again[0])
    records = cut(io.BytesIO(sample), marker, length, derandomize=True).read()
    words = f"python3 -m tmx cut --marker {marker.hex().upper()} --length {length} --derandomize RECORDING > cut.rec"
    return [replace(it, cut=words) for it in fits_at(records, length, 0)] if len(records) >= LEAST_RECORDS * length else []


def length_by_error_control(sample: bytes, begins: Sequence[int], room: int) -> int:
    """The least length of frames by which error control holds in most records in which it does by any; 0 where there is none."""
    holding: Counter[int] = Counter()
    for begin in begins:
        control = crc_hqx(sample[begin : begin + LEAST_FRAME - 1], 0xFFFF)
        for length in range(LEAST_FRAME, room + 1):
            control = crc_hqx(sample[begin + length - 1 : begin + length], control)
            if control == 0:
                holding[length] += 1
    most = max(holding.values(), default=0)
    if most < max(2, LEAST_GOOD * len(begins)):
        return 0
    return min(length for length, times in holding.items() if times > 0.9 * most)


def fit_of(sample: bytes, settings: Settings) -> Fit | None:
    """How the program finds these settings; None where they don't fit."""
    with NamedTemporaryFile() as file:
        file.write(sample[: len(sample) // settings.record_length * settings.record_length])
        file.flush()
        recording = Recording(file.name, settings)
        summary = recording.counts()
        octets = sum(it.octets for it in summary.channels.values())
        lost = sum(it.lost for it in summary.channels.values())
        whole = octets / (octets + lost) if octets + lost else 0.0
        enough = summary.recording.good > max(1, LEAST_GOOD * summary.recording.records)
        if not enough or not settings.error_control and whole < LEAST_WHOLE:
            return None
        good = [it for it in recording.frames() if isinstance(it, Frame)]
        longest = max((len(it.octets) for it in recording.packets()), default=0)
    return Fit(
        settings,
        summary.recording.records,
        len(good),
        whole,
        marker_before(sample, settings),
        sum(it.secondary > 0 for it in good),
        sum(it.ocf for it in good),
        tuple(sorted({it.channel for it in good})),
        longest,
    )


def marker_before(sample: bytes, settings: Settings) -> bytes:
    """The octets before each frame that most records have, from the first that stays the same on."""
    found = b""
    for place in reversed(range(settings.skip_before)):
        octets = sample[place :: settings.record_length]
        octet, times = Counter(octets).most_common(1)[0]
        if times < 0.8 * len(octets):
            break
        found = bytes([octet]) + found
    return found


def reason_for_nothing(sample: bytes, headers: Sequence[tuple[int, int]]) -> str:
    """What is said where nothing fits; `headers` are lengths of records and places of what may be headers of frames."""
    if len(sample) < LEAST_RECORDS * LEAST_FRAME:
        return "nothing fits: the recording is too short"
    if headers:
        length, place = headers[0]
        return (
            f"nothing fits: what may be headers of frames comes again every {length} octets from octet {place} on, but no length"
            " of frames fits: does the recording begin within a frame?  Try it without the octets before that place"
        )
    again = repeated_marker(sample)
    if again is None:
        return "nothing fits: no frame was found, and no octets that come again at one distance"
    marker, distance = again
    return (
        f"nothing fits: the octets {marker.hex().upper()} come again every {distance} octets, but no frame was found behind"
        " them, randomized or not: is the stream to be cut first?"
    )


def repeated_marker(sample: bytes) -> tuple[bytes, int] | None:
    """Four octets that come again at one distance, and the distance; the usual marker before others."""
    part = sample[: 1 << 18]
    words = Counter(part[at : at + 4] for at in range(len(part) - 3))
    for word, times in [(USUAL_MARKER, words[USUAL_MARKER]), *words.most_common(20)]:
        if times < LEAST_RECORDS or len(set(word)) == 1:
            continue
        at, distances = part.find(word), Counter[int]()
        while (behind := part.find(word, at + 1)) >= 0:
            distances[behind - at] += 1
            at = behind
        distance, most = distances.most_common(1)[0]
        if LEAST_FRAME <= distance and most > 0.5 * times:
            return word, distance
    return None
