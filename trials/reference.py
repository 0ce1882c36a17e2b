#!/usr/bin/env python3
"""What tmx has to give, worked out a second time from docs/FRAMES.md, RUNS.md, PACKETS.md and FORMATS.md.

    reference.py make random SEED OCTETS              writes so many octets to standard output
    reference.py make likely SEED OCTETS SETTINGS     writes a recording of mostly good frames to standard output
    reference.py expect SETTINGS RECORDING FOLDER     writes what each command has to give of the recording to the folder
    reference.py keep SETTINGS RECORDING RECORDS VERSION
                                                      writes the checkpoint of this version after so many records to standard output
    reference.py tiles SETTINGS FRAMES PACKETS REPORT says whether packets and dropped parts come to the data fields' octets

Nothing of tmx is used here but its documents.  Python 3.11 or later, for its reader of TOML.
"""

import os
import random
import re
import struct
import sys
import tomllib
from binascii import crc_hqx
from collections import Counter
from itertools import chain

IDLE_DATA_ONLY, NO_PACKET_STARTS = 2046, 2047
LONGEST_PACKET = 65542
FLAGS = ("continuation", "first", "last", "unsegmented")

# The definition of fields of the trials: name, type, bits, first bit.  fields.csv beside this script says the same.
FIELDS = (
    ("NUMBER", "uint", 13, 3),
    ("SIGNED", "int", 7, 16),
    ("RAW", "float", 16, 33),
    ("PASSED", "fill", 5, 49),
    ("TEXT", "str", 16, 54),
    ("WIDE", "uint", 64, 1),
    ("WIDE_SIGNED", "int", 64, 5),
    ("LONG", "uint", 33, 20),
    ("MIDDLE", "int", 20, 30),
)
NEEDED = 70  # bits


class Settings:
    def __init__(self, name):
        with open(name, "rb") as file:
            found = tomllib.load(file)
        self.spacecraft = found["spacecraft"]
        self.length = found["frame_length"]
        self.before = found.get("skip_before", 0)
        self.after = found.get("skip_after", 0)
        self.secondary = found.get("secondary", "flag")
        self.ocf = found.get("ocf", "flag")
        self.error_control = found["error_control"]
        self.channels = sorted(found.get("channels", range(8)))
        self.max_packet = found.get("max_packet", LONGEST_PACKET)
        self.record = self.before + self.length + self.after


# Frames.


def read_frame(frame, settings):
    """The word of the frame's fault, or what it says."""
    if settings.error_control:
        if crc_hqx(frame[:-2], 0xFFFF) != int.from_bytes(frame[-2:], "big"):
            return "crc"
    head = int.from_bytes(frame[:6], "big")
    secondary, ocf = head >> 15 & 1, head >> 32 & 1
    if head >> 46:
        return "version"
    if head >> 36 & 1023 != settings.spacecraft:
        return "spacecraft"
    if (settings.secondary, secondary) in (("always", 0), ("never", 1)):
        return "secondary-flag"
    if (settings.ocf, ocf) in (("always", 0), ("never", 1)):
        return "ocf-flag"
    if secondary and frame[6] >> 6:
        return "secondary-version"
    length = (frame[6] & 63) + 1 if secondary else 0
    end = len(frame) - 4 * ocf - 2 * settings.error_control
    field, pointer = frame[6 + length : max(end, 0)], head & 2047
    if not field:
        return "layout"
    if head >> 14 & 1:
        kind = "vca"
    elif pointer == NO_PACKET_STARTS:
        kind = "nostart"
    elif pointer == IDLE_DATA_ONLY:
        kind = "idle"
    elif pointer < len(field):
        kind = "packets"
    else:
        return "pointer"
    return dict(
        channel=head >> 33 & 7,
        master=head >> 24 & 255,
        count=head >> 16 & 255,
        kind=kind,
        place=pointer if kind == "packets" else "-",
        secondary=length,
        ocf="yes" if ocf else "no",
        order=head >> 13 & 1,
        segment=head >> 11 & 3,
        octets=len(field),
        field=field,
    )


def frame_line(number, found):
    if isinstance(found, str):
        return f"bad record={number} fault={found}"
    said = " ".join(f"{key}={value}" for key, value in found.items() if key != "field")
    return f"frame record={number} {said}"


# Packets.


def length_of(packet):
    """What the header says; nothing while it isn't all there."""
    return int.from_bytes(packet[4:6], "big") + 7 if len(packet) >= 6 else None


class Channel:
    def __init__(self):
        self.last = None
        self.tail = None  # octets, record and place of their beginning


class Reader:
    """Takes records one by one; keeps the packets and the lines that they give."""

    def __init__(self, settings):
        self.settings = settings
        self.channels = {number: Channel() for number in settings.channels}
        self.master = None  # the last master count
        self.sequences = {}  # channel and application: last count, first count of the open group
        self.frames, self.packets, self.report = [], [], []
        self.came = Counter()  # the good frames of each chosen channel

    def take(self, number, frame):
        found = read_frame(frame, self.settings)
        self.frames.append(frame_line(number, found))
        if isinstance(found, str):
            self.report.append(self.frames[-1])
            return
        self.take_master(number, found["master"])
        if found["channel"] in self.channels:
            self.came[found["channel"]] += 1
            self.take_good(number, found["channel"], found)

    def take_master(self, number, count):
        """Of each good frame, whatever its channel."""
        expected = count if self.master is None else (self.master + 1) % 256
        self.master = count
        if count != expected:
            missing = (count - expected) % 256
            self.report.append(f"mastergap record={number} expected={expected} found={count} missing={missing}")

    def take_good(self, number, name, found):
        channel, count, field = self.channels[name], found["count"], found["field"]
        said = f"record={number} channel={name}"
        expected = count if channel.last is None else (channel.last + 1) % 256
        channel.last = count
        if count != expected:
            missing = (count - expected) % 256
            self.report.append(f"gap {said} expected={expected} found={count} missing={missing}")
        if found["kind"] == "vca":
            self.report.append(f"vca {said}")
        if count != expected:
            self.drop_tail(number, name, "gap")
        if found["kind"] == "vca":
            self.drop_tail(number, name, "vca")
        elif found["kind"] == "nostart":
            self.take_no_start(number, name, field)
        elif found["kind"] == "packets":
            self.take_starts(number, name, field, found["place"])

    def take_no_start(self, number, name, field):
        channel = self.channels[name]
        if channel.tail is None:
            self.drop(number, name, number, 0, len(field), "no-start")
            return
        whole, first, place = channel.tail[0] + field, *channel.tail[1:]
        length = length_of(whole)
        if length is not None and (length < len(whole) or length > self.settings.max_packet):
            reason = "pointer" if length < len(whole) else "length"
            self.drop_tail(number, name, reason)
            self.drop(number, name, number, 0, len(field), reason)
        elif length == len(whole):
            channel.tail = None
            self.give(number, name, first, place, whole)
        else:
            channel.tail = (whole, first, place)

    def take_starts(self, number, name, field, at):
        channel, reason = self.channels[name], "no-start"
        if channel.tail is not None:
            whole, first, place = channel.tail[0] + field[:at], *channel.tail[1:]
            if length_of(whole) != len(whole):
                reason = "pointer"
            elif len(whole) > self.settings.max_packet:
                reason = "length"
            else:
                reason = None
                channel.tail = None
                self.give(number, name, first, place, whole)
            self.drop_tail(number, name, reason)
        if reason:
            self.drop(number, name, number, 0, at, reason)
        while at < len(field):
            rest = field[at:]
            length = length_of(rest)
            if rest[0] >> 5:
                self.drop(number, name, number, at, len(rest), "version")
                return
            if length is not None and length > self.settings.max_packet:
                self.drop(number, name, number, at, len(rest), "length")
                return
            if length is None or length > len(rest):
                channel.tail = (rest, number, at)
                return
            self.give(number, name, number, at, rest[:length])
            at += length

    def drop(self, number, name, first, place, octets, reason):
        if octets:
            self.report.append(
                f"drop record={number} channel={name} from={first} at={place} octets={octets} reason={reason}"
            )

    def drop_tail(self, number, name, reason):
        channel = self.channels[name]
        if channel.tail is not None:
            octets, first, place = channel.tail
            channel.tail = None
            self.drop(number, name, first, place, len(octets), reason)

    def give(self, number, name, first, place, octets):
        head = int.from_bytes(octets[:6], "big")
        application, flags, count = head >> 32 & 2047, FLAGS[head >> 30 & 3], head >> 16 & 16383
        line = (
            f"packet record={number} channel={name} from={first} at={place} type={'tc' if head >> 44 & 1 else 'tm'}"
            f" secondary={'yes' if head >> 43 & 1 else 'no'} apid={application} flags={flags} count={count}"
            f" octets={len(octets)}"
        )
        short = ""
        if len(octets) * 8 < NEEDED:
            short = (
                f"shortpacket record={number} channel={name} from={first} at={place}"
                f" needed={NEEDED} found={len(octets) * 8}"
            )
        self.packets.append((application, octets, line, f"{number},{name},{application},{count}"))
        if application != 2047:
            self.note(f"record={number} channel={name} apid={application}", (name, application), flags, count)
        self.report.append((application, short))

    def note(self, said, key, flags, count):
        last, opened = self.sequences.get(key, (None, None))
        gap = last is not None and count != (last + 1) % 16384
        if gap:
            expected = (last + 1) % 16384
            missing = (count - expected) % 16384
            self.report.append(f"seqgap {said} expected={expected} found={count} missing={missing}")
        if opened is not None and (gap or flags in ("first", "unsegmented")):
            self.report.append(f"broken {said} first={opened} last={last} reason={'gap' if gap else flags}")
            opened = None
        if flags in ("continuation", "last") and opened is None:
            self.report.append(f"stray {said} count={count} flag={flags}")
        elif flags == "last":
            self.report.append(f"group {said} first={opened} last={count}")
            opened = None
        elif flags == "first":
            opened = count
        self.sequences[key] = (count, opened)

    def close(self, number, rest):
        if rest:
            self.frames.append(f"short record={number} octets={rest}")
            self.report.append(self.frames[-1])
        for name in self.settings.channels:
            self.drop_tail(number, name, "end")
        for (name, application), (last, opened) in sorted(self.sequences.items()):
            if opened is not None:
                self.report.append(
                    f"broken record={number} channel={name} apid={application} first={opened} last={last} reason=end"
                )

    def report_of(self, application):
        """The lines of the report; those of short packets for `fields` of this application alone."""
        for line in self.report:
            if isinstance(line, str):
                yield line
            elif line[1] and line[0] == application:
                yield line[1]


def records_of(settings, octets):
    """The numbers and the frames of the whole records."""
    for number in range(len(octets) // settings.record):
        at = number * settings.record + settings.before
        yield number, octets[at : at + settings.length]


def read_recording(settings, octets, stops=()):
    """What all runs give, where they stop after the records that `stops` has, and go on from checkpoints of its versions.

    Also the checkpoints of these stops: that which is written, and that which is gone on from.
    """
    reader, stops, kept = Reader(settings), dict(stops), {}
    for number, frame in records_of(settings, octets):
        reader.take(number, frame)
        if number + 1 in stops:
            version = stops[number + 1]
            kept[number + 1] = [checkpoint(reader, number + 1, it) for it in (VERSION, version)]
            if version < VERSION:
                reader.master = None
    reader.close(*divmod(len(octets), settings.record))
    return reader, kept


# Checkpoints.

VERSION = 3  # the one that is written


def number_in(octets, *numbers):
    return b"".join(it.to_bytes(octets, "big") for it in numbers)


def settings_block(settings, version):
    words = ("flag", "always", "never")
    found = number_in(2, settings.spacecraft, settings.length, settings.before, settings.after)
    found += number_in(1, words.index(settings.secondary), words.index(settings.ocf), settings.error_control)
    found += number_in(1, sum(1 << it for it in settings.channels))
    return found if version == 1 else found + number_in(3, settings.max_packet)


def channel_block(channel):
    if channel is None or channel.last is None:
        return b"\0"
    if channel.tail is None:
        return number_in(1, 1, channel.last)
    octets, first, place = channel.tail
    found = number_in(1, 2, channel.last) + number_in(4, first) + number_in(2, place)
    return found + number_in(4, len(octets)) + octets


def checkpoint(reader, records, version):
    """The reader's state after so many records."""
    found = b"TMXC" + number_in(1, version) + settings_block(reader.settings, version) + number_in(4, records)
    if version == VERSION:
        found += b"\0" if reader.master is None else number_in(1, 1, reader.master)
    found += b"".join(channel_block(reader.channels.get(it)) for it in range(8))
    found += number_in(2, len(reader.sequences))
    for (name, application), (last, opened) in sorted(reader.sequences.items()):
        found += number_in(2, 2048 * name + application, last, 0xFFFF if opened is None else opened)
    return found + number_in(2, crc_hqx(found, 0xFFFF))


def keep(settings, recording, records, version):
    with open(recording, "rb") as file:
        octets = file.read()
    settings = Settings(settings)
    reader = Reader(settings)
    for number, frame in records_of(settings, octets[: int(records) * settings.record]):
        reader.take(number, frame)
    sys.stdout.buffer.write(checkpoint(reader, int(records), int(version)))


# Fields.


def escaped(octets):
    return "".join(chr(o) if 0x20 <= o <= 0x7E and o != 0x5C else f"\\x{o:02x}" for o in octets)


def value_of(packet, kind, bits, first):
    number = int.from_bytes(packet, "big") >> (len(packet) * 8 - first - bits) & (1 << bits) - 1
    if kind == "float":
        return f"0x{number:0{bits // 4}x}"
    if kind == "str":
        return escaped(number.to_bytes(bits // 8, "big"))
    if kind == "int" and number >> (bits - 1):
        number -= 1 << bits
    return str(number)


def in_csv(value):
    if any(it in value for it in ',"\r\n'):
        return '"' + value.replace('"', '""') + '"'
    return value


def rows(packets, wanted):
    fields = [it for it in FIELDS if it[1] != "fill"]
    yield ",".join(["tm_record,tm_channel,tm_apid,tm_count"] + [it[0] for it in fields])
    for application, octets, _, start in packets:
        if application == wanted and len(octets) * 8 >= NEEDED:
            yield ",".join([start] + [in_csv(value_of(octets, *it[1:])) for it in fields])


# The binary forms.


def octets_of(packet, kind, bits, first):
    number = int.from_bytes(packet, "big") >> (len(packet) * 8 - first - bits) & (1 << bits) - 1
    if kind == "str":
        return number.to_bytes(bits // 8, "big")
    if kind == "int" and number >> (bits - 1):
        number -= 1 << bits
    fewest = next(it for it in (1, 2, 4, 8) if bits <= 8 * it)
    return number.to_bytes(fewest, "little", signed=kind == "int")


def binary_packets(packets):
    for _, octets, line, _ in packets:
        said = dict(it.split("=") for it in line.split()[1:])
        yield struct.pack("<IIHBxI", *(int(said[it]) for it in ("record", "from", "at", "channel")), len(octets)) + octets


def binary_rows(packets, wanted):
    fields = [it for it in FIELDS if it[1] != "fill"]
    for application, octets, _, start in packets:
        if application == wanted and len(octets) * 8 >= NEEDED:
            number, channel, _, count = map(int, start.split(","))
            lead = struct.pack("<IHHB7x", number, application, count, channel)
            yield lead + b"".join(octets_of(octets, *it[1:]) for it in fields)


# The summary, counted from the lines of frames, of packets and of the report.

REASONS = ("pointer", "gap", "vca", "end", "no-start", "version", "length")
FAULTS = ("crc", "version", "spacecraft", "secondary-flag", "ocf-flag", "secondary-version", "layout", "pointer")


def added(word, said):
    """What a line adds to the summary: names of numbers, and how much."""
    channel, key = said.get("channel"), (said.get("channel"), said.get("apid"))
    match word:
        case "frame":
            kind, octets = said["kind"], int(said["octets"])
            counted = ((kind, channel), 1) if kind in ("idle", "vca") else (("data", channel), octets)
            return [("good", 1), (("frames", channel), 1), counted]
        case "bad":
            return [("bad", 1), (("fault", said["fault"]), 1)]
        case "mastergap":
            return [("gaps", 1), ("missing", int(said["missing"]))]
        case "gap":
            return [(("gaps", channel), 1), (("missing", channel), int(said["missing"]))]
        case "drop":
            octets, reason = int(said["octets"]), said["reason"]
            return [
                (("dropped", channel), 1),
                (("lost", channel), octets),
                (("parts", channel, reason), 1),
                (("octets", channel, reason), octets),
            ]
        case "packet":
            octets = int(said["octets"])
            return [
                (("packets", channel), 1),
                (("octets", channel), octets),
                (("packets", *key), 1),
                (("octets", *key), octets),
            ]
        case "seqgap":
            return [(("gaps", *key), 1), (("missing", *key), int(said["missing"]))]
        case "group" | "broken" | "stray":
            return [((word, *key), 1)]
    return []


def totals(reader):
    """The numbers of the summary, and for each channel and application the records of its packets."""
    numbers, seen = Counter(), {}
    notices = (it for it in reader.report_of(None) if not it.startswith("bad "))
    for line in chain(reader.frames, (it[2] for it in reader.packets), notices):
        word, *parts = line.split(" ")
        said = dict(it.split("=") for it in parts)
        for name, number in added(word, said):
            numbers[name] += number
        if word == "packet":
            seen.setdefault((int(said["channel"]), int(said["apid"])), []).append(said["record"])
    return numbers, seen


def summary(settings, reader, records, rest):
    numbers, seen = totals(reader)
    yield f"recording records={records} good={numbers['good']} bad={numbers['bad']} rest={rest}"
    for word in FAULTS:
        if numbers["fault", word]:
            yield f"fault word={word} records={numbers['fault', word]}"
    yield f"master gaps={numbers['gaps']} missing={numbers['missing']}"
    for name in map(str, settings.channels):
        if numbers["frames", name]:
            yield from channel_summary(numbers, name)
    for key in sorted(seen):
        yield application_summary(numbers, seen[key], *map(str, key))


def channel_summary(numbers, name):
    said = " ".join(
        f"{it}={numbers[it, name]}"
        for it in ("frames", "idle", "vca", "gaps", "missing", "packets", "octets", "dropped", "lost", "data")
    )
    yield f"channel channel={name} {said}"
    for reason in REASONS:
        if numbers["parts", name, reason]:
            parts, octets = numbers["parts", name, reason], numbers["octets", name, reason]
            yield f"loss channel={name} reason={reason} parts={parts} octets={octets}"


def application_summary(numbers, seen, *key):
    names = ("packets", "octets", "gaps", "missing", "group", "broken", "stray")
    packets, octets, gaps, missing, groups, broken, strays = (numbers[it, *key] for it in names)
    return (
        f"application channel={key[0]} apid={key[1]} packets={packets} octets={octets} first={seen[0]} last={seen[-1]}"
        f" gaps={gaps} missing={missing} groups={groups} broken={broken} strays={strays}"
    )


# What was lost, in a status and in a line.


def status_of(reader, report):
    """The status of a run with this report, where it is to say what was lost."""
    if not reader.came:
        return 5
    return 4 if any(not it.startswith(("vca ", "group ", "short ")) for it in report) else 0


def said_of_rows(reader, report, wanted):
    """What is said where `fields` gives no row of this application."""
    if wanted is None or any(it[0] == wanted and 8 * len(it[1]) >= NEEDED for it in reader.packets):
        return []
    short = sum(it.startswith("shortpacket ") for it in report)
    return [f"all {short} packets of application {wanted} are too short" if short else f"no packet of application {wanted}"]


def said_of(settings, reader, records, wanted=None):
    """The line that says what was lost, and what to do; an empty one where nothing was."""
    report, numbers = list(reader.report_of(wanted)), totals(reader)[0]
    said, status = [], status_of(reader, report)
    if numbers["bad"] < records:
        said += said_of_rows(reader, report, wanted)
        absent = [str(it) for it in settings.channels if not reader.came[it]]
        if len(settings.channels) < 8 and absent:
            said.append(f"no good frame of channel {', '.join(absent)}")
    if status:
        said.append(
            f"{records} records, {sum(reader.came.values())} good, {numbers['bad']} bad, {numbers['missing']} frames missing,"
            f" {sum(numbers['lost', str(it)] for it in range(8))} octets dropped"
        )
    probe = ", or python3 -m tmx probe" if 2 * numbers["bad"] > records else ""
    return f"  {'; '.join(said)}: see tmx summary{probe}" if said else ""


def strict(settings, recording, *applications):
    """For each command its status and what is said; of `fields` for each of these applications."""
    settings = Settings(settings)
    with open(recording, "rb") as file:
        octets = file.read()
    reader, _ = read_recording(settings, octets)
    records, status = len(octets) // settings.record, status_of(reader, reader.report_of(None))
    for command in ("packets", "extract", "split"):
        print(command, status, said_of(settings, reader, records))
    for wanted in map(int, applications):
        print("fields", status_of(reader, reader.report_of(wanted)), said_of(settings, reader, records, wanted))
    print("summary", status)


# What is written.


def write_lines(name, lines):
    with open(name, "w", encoding="ascii") as file:
        file.writelines(f"{line}\n" for line in lines)


def expect(settings, recording, folder):
    with open(recording, "rb") as file:
        octets = file.read()
    settings = Settings(settings)
    reader, _ = read_recording(settings, octets)
    wanted = Counter(it[0] for it in reader.packets).most_common(1)
    wanted = wanted[0][0] if wanted else 0
    os.makedirs(f"{folder}/split", exist_ok=True)
    write_lines(f"{folder}/frames", reader.frames)
    write_lines(f"{folder}/packets", (it[2] for it in reader.packets))
    write_lines(f"{folder}/report", reader.report_of(None))
    write_lines(f"{folder}/summary", summary(settings, reader, *divmod(len(octets), settings.record)))
    write_lines(f"{folder}/apid", [wanted])
    write_lines(f"{folder}/fields", rows(reader.packets, wanted))
    write_lines(f"{folder}/fields.report", reader.report_of(wanted))
    with open(f"{folder}/extract", "wb") as file:
        file.writelines(it[1] for it in reader.packets)
    with open(f"{folder}/packets.octets", "wb") as file:
        file.writelines(binary_packets(reader.packets))
    with open(f"{folder}/fields.octets", "wb") as file:
        file.writelines(binary_rows(reader.packets, wanted))
    files = {}
    for application, octets, _, _ in reader.packets:
        files.setdefault(application, []).append(octets)
    for application, octets in files.items():
        with open(f"{folder}/split/apid-{application:04}.pkt", "wb") as file:
            file.writelines(octets)


def tiles(settings, frames, packets, report):
    """Per chosen channel, over the program's own lines: packets and dropped parts come to the data fields' octets."""
    fields, found = Counter(), Counter()
    chosen = {str(it) for it in Settings(settings).channels}
    for line in open(frames, encoding="ascii"):
        said = dict(re.findall(r"(\w+)=(\S+)", line))
        if said.get("kind") in ("packets", "nostart") and said["channel"] in chosen:
            fields[said["channel"]] += int(said["octets"])
    for name in (packets, report):
        for line in open(name, encoding="ascii"):
            if line.startswith(("packet ", "drop ")):
                said = dict(re.findall(r"(\w+)=(\S+)", line))
                found[said["channel"]] += int(said["octets"])
    return fields == found


# Recordings.


class Sender:
    """A channel that lays packets end to end into data fields."""

    def __init__(self, chance):
        self.chance, self.octets, self.starts = chance, b"", []
        self.counts = Counter()
        self.count = chance.randrange(256)

    def packet(self):
        chance = self.chance
        application = chance.choice((0, 5, 100, 2046, 2047))
        self.counts[application] += 1 + (chance.random() < 0.02)
        length = chance.choice((1, 2, 3, chance.randrange(1, 300), chance.randrange(1, 300), chance.randrange(1, 3000)))
        if chance.random() < 0.002:
            length = 65536
        head = chance.randrange(4) << 43 | application << 32
        head |= chance.choice((0, 0, 1, 2, 3)) << 30 | self.counts[application] % 16384 << 16 | length - 1
        if chance.random() < 0.01:
            head |= chance.randrange(1, 8) << 45
        if chance.random() < 0.02:
            head ^= 1 << chance.randrange(16)
        return head.to_bytes(6, "big") + chance.randbytes(length)

    def field(self, octets):
        while len(self.octets) < octets:
            self.starts.append(len(self.octets))
            self.octets += self.packet()
        field, self.octets = self.octets[:octets], self.octets[octets:]
        inside = [it for it in self.starts if it < octets]
        self.starts = [it - octets for it in self.starts if it >= octets]
        return field, inside[0] if inside else NO_PACKET_STARTS


def likely_frame(chance, settings, sender, number, master):
    """A frame that is mostly good and goes on where its channel stopped."""
    flags = {"always": 1, "never": 0}
    secondary = flags.get(settings.secondary, int(chance.random() < 0.2))
    ocf = flags.get(settings.ocf, int(chance.random() < 0.2))
    room = settings.length - 6 - 4 * ocf - 2 * settings.error_control
    extra = chance.randrange(1, min(65, max(2, room))) if secondary else 0
    field, pointer = sender.field(max(room - extra, 0))
    unlike = chance.random()
    if unlike < 0.02:
        pointer = chance.randrange(max(len(field), 1))
    elif unlike < 0.03:
        pointer = chance.randrange(2048)
    elif unlike < 0.04:
        pointer = IDLE_DATA_ONLY
    sender.count += 1 if chance.random() < 0.99 else chance.randrange(256)
    head = settings.spacecraft << 36 | number << 33 | ocf << 32 | master % 256 << 24 | sender.count % 256 << 16
    head |= secondary << 15 | (chance.random() < 0.01) << 14 | chance.randrange(8) << 11 | pointer
    frame = head.to_bytes(6, "big")
    frame += bytes([extra - 1]) + chance.randbytes(extra - 1) if secondary else b""
    frame = (frame + field + chance.randbytes(4 * ocf))[: settings.length - 2 * settings.error_control]
    frame = bytearray(frame)
    if not settings.error_control and chance.random() < 0.02:
        frame[chance.randrange(len(frame))] ^= 1 << chance.randrange(8)
    if settings.error_control:
        frame += crc_hqx(bytes(frame), 0xFFFF).to_bytes(2, "big")
        if chance.random() < 0.02:
            frame[chance.randrange(len(frame))] ^= 1 << chance.randrange(8)
    return bytes(frame)


def sending(chance, settings):
    """Three channels: one that is chosen, one that isn't, if there is one, and any others."""
    first = [chance.choice(settings.channels)]
    others = [it for it in range(8) if it not in settings.channels]
    first += [chance.choice(others)] if others else []
    return first + chance.sample([it for it in range(8) if it not in first], 3 - len(first))


def likely(seed, octets, settings):
    chance = random.Random(seed)
    senders = {it: Sender(chance) for it in sending(chance, settings)}
    records, master = [], 0
    while len(records) <= octets // settings.record:
        name = chance.choice(list(senders))
        frame = likely_frame(chance, settings, senders[name], name, master)
        master += 1
        if chance.random() < 0.005:  # frames of channels that nobody sees
            master += chance.randrange(256)
        if chance.random() < 0.98:  # else it is lost
            records.append(chance.randbytes(settings.before) + frame + chance.randbytes(settings.after))
    return b"".join(records)[:octets]


def make(kind, seed, octets, settings=None):
    if kind == "random":
        recording = random.Random(int(seed)).randbytes(int(octets))
    else:
        recording = likely(int(seed), int(octets), Settings(settings))
    sys.stdout.buffer.write(recording)


def main(words):
    what, words = words[0], words[1:]
    if what == "make":
        make(*words)
    elif what == "expect":
        expect(*words)
    elif what == "strict":
        strict(*words)
    elif what == "keep":
        keep(*words)
    elif what == "tiles":
        return 0 if tiles(*words) else 1
    return 0


if __name__ == "__main__":
    sys.exit(main(sys.argv[1:]))
