#!/usr/bin/env python3
"""Makes pass.rec, a small recording of TM transfer frames, next to this file.

The recording is meant to look like forty seconds of a pass over a ground
station.  The spacecraft (id 42) sends one frame of 256 octets in every slot of
about an eighth of a second.  It uses three virtual channels:

    channel 0   housekeeping and attitude, as they are measured
    channel 1   science: images cut into segments, and spectra
    channel 3   playback of housekeeping and attitude that were recorded
                about an hour and a half earlier

Frames follow CCSDS 132.0-B-3 and packets CCSDS 133.0-B-2.  The frames lie one
after the other, without sync markers or check symbols between them.  Every
frame ends with an error control field.  Twelve seconds into the pass the
operators open the telecommand link, and from then on the frames of channel 0
carry an operational control field of four octets as well.

Science pauses for a while, and the playback ends before the pass does.  A
channel that has waited too long sends a frame all the same: what it has, filled
up with an idle packet, or a frame of idle data only if it has nothing.

Two things go wrong on the way to the ground.  One frame of channel 1 is lost,
and one octet of one frame of channel 0 is altered.

Nothing here depends on chance or on the clock: each run writes the same octets.
What went into the recording is printed when it is written.
"""

import struct
from collections import Counter, namedtuple
from pathlib import Path

RECORDING = Path(__file__).resolve().with_name("pass.rec")

# Frames.
SPACECRAFT = 42
FRAME_LENGTH = 256
FRAME_HEADER_LENGTH = 6
CONTROL_FIELD_LENGTH = 4
REPORT_OF_COP_1 = 0x01000000  # the rest of an operational control field
ERROR_CONTROL_LENGTH = 2
SEGMENT_LENGTH_ID = 0b11
NO_PACKET_STARTS = 2047
IDLE_DATA_ONLY = 2046
FIRST_MASTER_COUNT = 100

# Channels: (number, first frame count), the one that may send first on top.
REAL_TIME, SCIENCE, PLAYBACK = 0, 1, 3
FIRST_FRAME_COUNTS = ((REAL_TIME, 200), (SCIENCE, 180), (PLAYBACK, 17))
LONGEST_WAIT = 12  # slots after which a channel sends, full frame or not

# Packets.
PACKET_HEADER_LENGTH = 6
SHORTEST_PACKET = 7
CONTINUATION, FIRST, LAST, UNSEGMENTED = range(4)
HOUSEKEEPING, ATTITUDE, IMAGE, SPECTRUM, IDLE = 100, 101, 200, 201, 2047
FIRST_PACKET_COUNTS = {HOUSEKEEPING: 16350, ATTITUDE: 4711, IMAGE: 880, SPECTRUM: 2290}
IDLE_OCTET = b"\x55"

# The pass.  Times are in units of 1/65536 second, as packets carry them.
SECOND = 65536
SLOT_TIME = 8247
START_TIME = 812345678 * SECOND + 0x1F3A
LAST_SLOT = 299  # no more packets are made from this slot on
HOUSEKEEPING_EVERY = 2  # slots
SPECTRUM_EVERY = 6
IMAGE_SLOTS = (2, 37, 71, 108, 142, 174, 252)
SEGMENT_EVERY = 5
SCIENCE_PAUSE = range(204, 252)
PLAYBACK_FROM = -42912  # slots before the pass
PLAYBACK_SLOTS = 208
TELECOMMAND_SLOT = 96

# What goes wrong: (channel, which of the channel's frames, from 0).
LOST_FRAME = (SCIENCE, 88)
DAMAGED_FRAME = (REAL_TIME, 52)
DAMAGED_PLACE = FRAME_HEADER_LENGTH + 101
DAMAGE = 0x18

# Images.
FIRST_IMAGE = 311
IMAGE_WIDTH = 96
LINES_OF_SEGMENTS = (7, 5, 9, 6, 8, 5)

Packet = namedtuple("Packet", "application octets")
# Where a packet or a frame's data lie in all that a channel sends.
Span = namedtuple("Span", "start end")


# Values that vary slowly.


def wave(time, seconds, low, high):
    """Goes evenly from low to high and back in this many seconds."""
    half = seconds * SECOND // 2
    step = time % (2 * half)
    return low + (high - low) * min(step, 2 * half - step) // half


def noise(time, place, below):
    """A number from 0 up to below that looks like chance but is not."""
    mixed = (time * 2654435761 + place * 40503 + 12345) & 0xFFFFFFFF
    mixed ^= mixed >> 15
    mixed = mixed * 2246822519 & 0xFFFFFFFF
    return (mixed ^ (mixed >> 13)) % below


# Packets.


def time_of(slot):
    """The time on board in a slot; slots before the pass are negative."""
    return START_TIME + slot * SLOT_TIME


def time_field(time):
    """Four octets of seconds and two of fraction."""
    return struct.pack(">IH", time // SECOND, time % SECOND)


def packet(application, flags, number, data, secondary=True):
    """A telemetry packet, number being its place among those of its application."""
    count = (FIRST_PACKET_COUNTS.get(application, 0) + number) % 16384
    header = struct.pack(
        ">HHH", secondary << 11 | application, flags << 14 | count, len(data) - 1
    )
    return Packet(application, header + data)


def idle_packet(length):
    """An idle packet of this length in all.  Its count stays 0."""
    data = IDLE_OCTET * (length - PACKET_HEADER_LENGTH)
    return packet(IDLE, UNSEGMENTED, 0, data, secondary=False)


def housekeeping(slot):
    """Time, name of the report (4 octets), mode (8 octets), then 16-bit values.

    Three reports take turns: voltages in mV, temperatures in 1/100 K, and levels
    of the radio.
    """
    time = time_of(slot)
    number = slot // HOUSEKEEPING_EVERY
    name, values, middle = (
        (b"PWR ", 21, 14000),
        (b"THM ", 30, 28500),
        (b"RAD ", 25, 3200),
    )[number % 3]
    mode = b"CONTACT " if slot >= 0 else b"NOMINAL "
    data = time_field(time) + name + mode
    for place in range(values):
        centre = middle + 37 * place
        value = wave(time, 40 + 9 * place, centre - 150, centre + 150)
        data += struct.pack(">H", value + noise(time, place, 5))
    return packet(HOUSEKEEPING, UNSEGMENTED, number, data)


def attitude(slot):
    """Time, three angles and three rates (16 bits, signed), mode, stars seen.

    Angles are in 1/100 degree, rates in 1/10000 degree per second.  Mode and
    number of stars are one octet each; a 16-bit brightness follows per star.
    """
    time = time_of(slot)
    angles = [wave(time, 90 + 40 * axis, -1200, 900 + 200 * axis) for axis in range(3)]
    rates = [wave(time, 25 + 6 * axis, -340, 340) + noise(time, axis, 7) for axis in range(3)]
    stars = wave(time, 11, 0, 5) + noise(time, 9, 2)
    data = time_field(time) + struct.pack(">6hBB", *angles, *rates, 3, stars)
    for star in range(stars):
        data += struct.pack(">H", 5200 - 610 * star + noise(time, 20 + star, 90))
    return packet(ATTITUDE, UNSEGMENTED, slot, data)


def platform_packets(slot):
    """The housekeeping and attitude packets made in a slot, before the pass too."""
    packets = [attitude(slot)]
    if slot % HOUSEKEEPING_EVERY == 0:
        packets.append(housekeeping(slot))
    return packets


def spectrum(slot, number):
    """Time, integration time in ms, number of bins, then 16-bit bins."""
    time = time_of(slot)
    bins = 80
    line = wave(time, 50, 22, 58)
    data = time_field(time) + struct.pack(">HH", 740, bins)
    for place in range(bins):
        height = 240 + 2 * place + max(0, 4000 - 520 * abs(place - line))
        data += struct.pack(">H", height + noise(time, place, 24))
    return packet(SPECTRUM, UNSEGMENTED, number, data)


def pixel(image, line, column):
    """A bright disc, which moves a little from image to image, on a dark sky."""
    square = (column - 40 - 3 * image) ** 2 + (2 * (line - 20)) ** 2
    glow = noise(image * 64 + line, column, 8)
    return 14 + glow if square > 900 else 220 - square // 8 + glow


def image_segments(image, slot):
    """The segments of one image, a packet each, with the slots they are made in.

    Time, number of the image, first line of the segment, then one octet per
    pixel, line by line.
    """
    line = 0
    parts = len(LINES_OF_SEGMENTS)
    for part, lines in enumerate(LINES_OF_SEGMENTS):
        data = time_field(time_of(slot)) + struct.pack(">HH", FIRST_IMAGE + image, line)
        for row in range(line, line + lines):
            data += bytes(pixel(image, row, column) for column in range(IMAGE_WIDTH))
        flags = FIRST if part == 0 else LAST if part == parts - 1 else CONTINUATION
        yield slot, packet(IMAGE, flags, image * parts + part, data)
        line += lines
        slot += SEGMENT_EVERY


def science_packets():
    """All science packets of the pass, by the slot in which they are made."""
    made = {slot: [] for slot in range(LAST_SLOT)}
    for image, first_slot in enumerate(IMAGE_SLOTS):
        for slot, segment in image_segments(image, first_slot):
            made[slot].append(segment)
    slots = [slot for slot in range(0, LAST_SLOT, SPECTRUM_EVERY) if slot not in SCIENCE_PAUSE]
    for number, slot in enumerate(slots):
        made[slot].append(spectrum(slot, number))
    return made


# Channels.


class Channel:
    """A virtual channel: the packets that wait, and an account of what was sent."""

    def __init__(self, number, first_count):
        self.number = number
        self.first_count = first_count
        self.waiting = b""  # the octets that wait
        self.starts = []  # where packets start in them
        self.sent = 0  # how many octets have been sent
        self.last_slot = 0  # when a frame was last sent
        self.packets = []  # (application, span) of every packet
        self.frames = []  # (span, idle data only or not) of every frame

    def frame_count(self, frame):
        """The count of a frame of this channel, frames being numbered from 0."""
        return (self.first_count + frame) % 256

    def add(self, new):
        """Lets a packet wait."""
        start = self.sent + len(self.waiting)
        self.packets.append((new.application, Span(start, start + len(new.octets))))
        self.starts.append(len(self.waiting))
        self.waiting += new.octets

    def next_field(self, length):
        """The next frame's first header pointer and data field."""
        if not self.waiting:
            self.frames.append((Span(self.sent, self.sent), True))
            return IDLE_DATA_ONLY, IDLE_OCTET * length
        if len(self.waiting) < length:
            self.add(idle_packet(max(SHORTEST_PACKET, length - len(self.waiting))))
        field, self.waiting = self.waiting[:length], self.waiting[length:]
        pointer = self.starts[0] if self.starts and self.starts[0] < length else NO_PACKET_STARTS
        self.starts = [start - length for start in self.starts if start >= length]
        self.frames.append((Span(self.sent, self.sent + length), False))
        self.sent += length
        return pointer, field


# Frames.


def error_control(octets):
    """x^16 + x^12 + x^5 + 1, register preset to ones, no final inversion."""
    register = 0xFFFF
    for octet in octets:
        register ^= octet << 8
        for _ in range(8):
            carry = register & 0x8000
            register = register << 1 & 0xFFFF
            if carry:
                register ^= 0x1021
    return register


def control_field(slot):
    """A report on the telecommand link, or nothing before that link is open.

    Its last octet is the count of the telecommand frame awaited next, which goes
    up by one every twenty slots.
    """
    if slot < TELECOMMAND_SLOT:
        return b""
    awaited = (slot - TELECOMMAND_SLOT) // 20
    return struct.pack(">I", REPORT_OF_COP_1 | awaited)


def field_length(control):
    """The octets of a frame's data field, given its operational control field."""
    return FRAME_LENGTH - FRAME_HEADER_LENGTH - len(control) - ERROR_CONTROL_LENGTH


def next_frame(channel, slot):
    """The frame that a channel sends in a slot.

    All flags but that of the operational control field are 0.
    """
    control = control_field(slot) if channel.number == REAL_TIME else b""
    count = channel.frame_count(len(channel.frames))
    pointer, field = channel.next_field(field_length(control))
    channel.last_slot = slot
    has_control = len(control) == CONTROL_FIELD_LENGTH
    header = struct.pack(
        ">HBBH",
        SPACECRAFT << 4 | channel.number << 1 | has_control,
        (FIRST_MASTER_COUNT + slot) % 256,
        count,
        SEGMENT_LENGTH_ID << 11 | pointer,
    )
    frame = header + field + control
    return frame + struct.pack(">H", error_control(frame))


def damaged(frame):
    """The frame with one octet altered, its error control left as it was."""
    altered = bytearray(frame)
    altered[DAMAGED_PLACE] ^= DAMAGE
    return bytes(altered)


# The pass.


def choose(channels, slot, length):
    """The channel that sends in this slot.

    One that has waited too long; else the first with a full frame; else the one
    that has waited longest.
    """
    longest = min(channels, key=lambda channel: channel.last_slot)
    if slot - longest.last_slot < LONGEST_WAIT:
        for channel in channels:
            if len(channel.waiting) >= length:
                return channel
    return longest


def play_back(channel, old_slot, length):
    """Hands over recorded packets until a frame is full.  Gives the next old slot."""
    while old_slot < PLAYBACK_FROM + PLAYBACK_SLOTS and len(channel.waiting) < length:
        for old in platform_packets(old_slot):
            channel.add(old)
        old_slot += 1
    return old_slot


def make_pass():
    """The channels with their accounts, the records, and a place for each.

    The place says which frame of which channel a record is.
    """
    channels = [Channel(number, count) for number, count in FIRST_FRAME_COUNTS]
    real_time, science, playback = channels
    science_made = science_packets()
    old_slot = PLAYBACK_FROM
    records, places = [], []
    slot = 0
    while slot < LAST_SLOT or any(channel.waiting for channel in channels):
        if slot < LAST_SLOT:
            for new in platform_packets(slot):
                real_time.add(new)
            for new in science_made[slot]:
                science.add(new)
        old_slot = play_back(playback, old_slot, field_length(b""))
        channel = choose(channels, slot, field_length(b""))
        place = (channel.number, len(channel.frames))
        frame = next_frame(channel, slot)
        if place != LOST_FRAME:
            records.append(damaged(frame) if place == DAMAGED_FRAME else frame)
            places.append(place)
        slot += 1
    return channels, records, places


# The account.


def holes(channel):
    """Where the octets of the lost and the damaged frame of a channel lie."""
    return [
        channel.frames[frame][0]
        for number, frame in (LOST_FRAME, DAMAGED_FRAME)
        if number == channel.number
    ]


def print_frames(channel, records, places):
    here = [record for place, record in zip(places, records) if place[0] == channel.number]
    control = sum(record[1] & 1 for record in here)
    idle = sum(idle_only for _, idle_only in channel.frames)
    last = channel.frame_count(len(channel.frames) - 1)
    print(
        f"channel {channel.number}: {len(here)} frames, counts {channel.first_count} to {last}, "
        f"{idle} of idle data only, {control} with an operational control field"
    )


def print_packets(channel):
    """A packet with octets in the lost or the damaged frame is not whole."""
    sent, whole = Counter(), Counter()
    for application, span in channel.packets:
        sent[application] += 1
        if all(span.end <= hole.start or hole.end <= span.start for hole in holes(channel)):
            whole[application] += 1
    for application in sorted(sent):
        kind = "idle packets" if application == IDLE else f"application {application}"
        print(
            f"channel {channel.number}, {kind}: {sent[application]} sent, "
            f"{whole[application]} whole in the recording"
        )


def print_account(channels, records, places):
    octets = sum(len(record) for record in records)
    print(f"{len(records)} records of {FRAME_LENGTH} octets, {octets} octets in all")
    print(f"octets left at the end: {octets % FRAME_LENGTH}")
    for channel in channels:
        print_frames(channel, records, places)
    by_number = {channel.number: channel for channel in channels}
    number, frame = DAMAGED_FRAME
    count = by_number[number].frame_count(frame)
    print(f"damaged: record {places.index(DAMAGED_FRAME)}, channel {number}, count {count}")
    number, frame = LOST_FRAME
    count = by_number[number].frame_count(frame)
    seen = places.index((number, frame + 1))
    print(f"missing: channel {number}, count {count}, noticed at record {seen}")
    for channel in channels:
        print_packets(channel)


def main():
    channels, records, places = make_pass()
    RECORDING.write_bytes(b"".join(records))
    print_account(channels, records, places)


if __name__ == "__main__":
    main()
