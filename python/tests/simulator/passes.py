"""Passes by random seeds: a spacecraft, what it sent, and two stations that heard it with different faults."""

import random
from collections.abc import Collection
from dataclasses import dataclass
from typing import Literal

from .spacecraft import Application, Channel, Sent, Spacecraft, send
from .station import (
    BitErrors,
    DamagedMarker,
    Fault,
    Foreign,
    Form,
    Heard,
    Inverted,
    Lost,
    LostOfChannel,
    Noise,
    Slip,
    Twice,
    hear,
)


@dataclass(frozen=True)
class Pass:
    """What a spacecraft sent, and the recordings of its frames by two stations."""

    seed: int
    sent: Sent
    stations: tuple[Heard, Heard]


def make_pass(seed: int) -> Pass:
    """A pass by a seed: 1,000 to 3,000 frames.

    With each tenth seed it has 6,000 short ones, of which thousands are lost.  With each third one a channel loses 256 frames, or
    512, and has packets that are joined over this loss.
    """
    chance = random.Random(seed)
    is_long, is_regular = seed % 10 == 0, seed % 3 == 0
    spacecraft = make_spacecraft(chance, 80 if is_long else chance.choice((64, 128, 256, 1115)), is_regular)
    frames = 6000 if is_long else chance.randint(1000, 3000)
    resets = [chance.randrange(frames // 4, frames)] if chance.random() < 0.4 else []
    sent = send(spacecraft, frames, seed, resets)
    forms = make_form(chance), make_form(chance)
    first, second = (hear(sent, form, make_faults(chance, sent, form, is_long), seed + it) for it, form in enumerate(forms))
    return Pass(seed, sent, (first, second))


def make_spacecraft(chance: random.Random, frame_length: int, is_regular: bool = False) -> Spacecraft:
    """A spacecraft with one to five channels, the first of which has packets of one length if it is regular."""
    first, *numbers = chance.sample(range(8), chance.randint(1, 5))
    shared = make_application(chance, 1000)
    channels = [make_regular(chance, first) if is_regular else make_channel(chance, first, shared)]
    channels += [make_channel(chance, it, shared) for it in numbers[:2]]
    channels += [Channel(it, kind="vca", ocf=chance.random() < 0.5) for it in numbers[2:3]]
    channels += [Channel(it, kind="idle", ocf=chance.random() < 0.5) for it in numbers[3:]]
    return Spacecraft(chance.randrange(1023), tuple(channels), frame_length, chance.random() < 0.8)


def make_application(chance: random.Random, apid: int) -> Application:
    """An application, with segments or without."""
    most = chance.choice((20, 200, 900, 2000))
    segment = chance.choice((0, 0, 60, 250)) if most > 100 else 0
    times: list[Literal["", "cuc", "cds"]] = ["", "cuc", "cds"]
    return Application(apid, (1, most), segment, chance.choice(times))


def make_channel(chance: random.Random, number: int, shared: Application) -> Channel:
    """A channel of packets: of applications of its own, and perhaps of one that other channels have too."""
    own = [make_application(chance, 100 * number + it) for it in range(chance.randint(1, 4))]
    applications = (*own, shared) if chance.random() < 0.5 else tuple(own)
    secondary, is_extended = chance.choice(((0, False), (0, False), (4, True), (chance.randint(2, 12), False)))
    shares = chance.choice((0.0, 0.1)), chance.choice((0.0, 0.1))
    rate, has_ocf = chance.choice((1, 2, 8)), chance.random() < 0.5
    return Channel(number, applications, rate, "packets", has_ocf, secondary, is_extended, *shares)


def make_regular(chance: random.Random, number: int) -> Channel:
    """A channel all of whose packets have 64 octets.  After 256 lost frames the next place is as if none were lost."""
    return Channel(number, (Application(100 * number, (58, 58)),), rate=8, ocf=chance.random() < 0.5, secondary=4, extended=True)


def make_form(chance: random.Random) -> Form:
    """What a station records with each frame, so that its records have one length."""
    return Form(chance.random() < 0.5, chance.random() < 0.5, False, chance.choice((0, 0, 16, 160)))


def make_faults(chance: random.Random, sent: Sent, form: Form, is_long: bool) -> list[Fault]:
    """Faults that keep records whole.  Without error control no bits of a frame are wrong, since nobody could tell."""
    frames = len(sent.frames)
    losses = [(chance.randrange(frames), chance.choice((1, 2, 30, 255, 256))) for _ in range(chance.randint(0, 4))]
    faults: list[Fault] = [Lost(*it) for it in losses]
    faults += [Twice(it) for it in chance.sample(range(frames - 1), chance.randint(0, 5))]
    other = sent.spacecraft.number ^ 1
    faults += [Foreign(it, chance.choice((1, 1, 7)), other) for it in chance.sample(range(frames), chance.randint(0, 3))]
    if sent.spacecraft.error_control:
        wrong = chance.sample(range(frames), chance.choice((0, 10, 100)))
        bits = range(8 * sent.spacecraft.frame_length)
        faults += [BitErrors(it, tuple(chance.sample(bits, chance.randint(1, 3)))) for it in wrong]
    faults += make_dropouts(chance, sent)
    if is_long:
        faults.append(Lost(chance.randrange(500, 2000), chance.randint(2000, 4000)))
    return faults + make_ends(chance, frames - 1, form.before + sent.spacecraft.frame_length + form.check)


def make_ends(chance: random.Random, last: int, record: int) -> list[Fault]:
    """Noise of whole records before; and after the last frame nothing, noise of any length, or an end within that frame."""
    faults: list[Fault] = [Noise("before", record * chance.randint(1, 3))] if chance.random() < 0.3 else []
    place = chance.randrange(1, record)
    ends: list[list[Fault]] = [[], [Noise("after", chance.randint(1, 3 * record))], [Slip(last, 8 * place, 8 * (place - record))]]
    return faults + chance.choice(ends)


def make_dropouts(chance: random.Random, sent: Sent) -> list[Fault]:
    """A loss of 256 frames of the first channel, or of 512, and of no others, if it has so many."""
    channel = sent.spacecraft.channels[0].number
    count = sum(it.channel == channel for it in sent.frames)
    lost = chance.choice((256, 256, 512))
    return [LostOfChannel(channel, chance.randrange(1, count - lost - 1), lost)] if count > lost + 2 else []


def make_stream(seed: int) -> Heard:
    """A raw stream with markers in which octets are lost or added, but no bits: `tmx.cut` finds its frames."""
    chance = random.Random(seed)
    sent = send(make_spacecraft(chance, chance.choice((64, 128, 256))), chance.randint(500, 1500), seed)
    form = Form(False, True, chance.random() < 0.5, chance.choice((0, 16, 160)))
    length = len(sent.frames[0].octets) + form.before + form.check
    frames = range(12, len(sent.frames) - 12)
    faults: list[Fault] = [Noise("before", chance.randint(1, 1000))] if chance.random() < 0.7 else []
    faults += [Noise("after", chance.randint(1, 1000))] if chance.random() < 0.5 else []
    faults += [Lost(chance.choice(frames), chance.choice((1, 5, 300))) for _ in range(chance.randint(0, 3))]
    faults += [Twice(it) for it in chance.sample(frames, 3)]
    faults += [Foreign(it, 2, sent.spacecraft.number ^ 1) for it in chance.sample(frames, 2)]
    if chance.random() < 0.5:
        place = chance.randrange(1, length)
        faults += [Slip(0, 0, -8 * chance.randrange(1, length)), Slip(len(sent.frames) - 1, 8 * place, 8 * (place - length))]
    for number in chance.sample(frames[::12], min(30, len(frames[::12]))):
        faults += make_slip(chance, number, length)
    return hear(sent, form, faults, seed)


def make_slip(chance: random.Random, number: int, length: int) -> list[Fault]:
    """Faults of a place of a stream: one to five damaged markers, octets added before a frame, or up to nine of a frame lost."""
    kind = chance.choice(("markers", "added", "lost"))
    if kind == "markers":
        wrong = range(number, number + chance.randint(1, 5))
        return [DamagedMarker(it, tuple(chance.sample(range(32), chance.randint(1, 9)))) for it in wrong]
    if kind == "added":
        return [Slip(number, 0, 8 * chance.randint(1, 300))]
    place = chance.randrange(length)
    return [Slip(number, 8 * place, -8 * min(length - place, chance.randint(1, 9)))]


def make_hard_stream(seed: int, frames: Collection[int] = range(50, 60)) -> Heard:
    """A raw stream with all faults: bits lost and added, inverted stretches, a begin and an end within a frame."""
    chance = random.Random(seed)
    sent = send(make_spacecraft(chance, 256), 500, seed)
    form = Form(False, True, chance.random() < 0.5, 160)
    length = 8 * (256 + form.before + form.check)
    faults: list[Fault] = [Slip(0, 0, -8 * chance.randrange(256))]
    faults.append(Slip(499, 8 * chance.randrange(1, 200), -8 * chance.randrange(1, 40)))
    faults += [Slip(it, chance.randrange(length - 9), chance.choice((-9, -1, 1, 3))) for it in frames]
    faults += [BitErrors(it + 100, (chance.randrange(2048),)) for it in frames]
    faults += [DamagedMarker(it + 200, (chance.randrange(32),)) for it in frames]
    faults.append(Inverted(400, 420, chance.randrange(length)))
    return hear(sent, form, faults, seed)
