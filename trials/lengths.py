#!/usr/bin/env python3
"""Makes recordings in which lengths of packets are damaged, and counts what is lost with and without `max_packet`.

    lengths.py FOLDER

Packets are laid into the frames of one channel.  In one of a hundred headers one bit of the length is flipped; pointers
and error control are right.  Writes recordings and settings to the folder, and prints for each what the reference gives.
"""

import random
import re
import sys
from collections import Counter
from pathlib import Path

import reference

KINDS = ((256, 1100), (1115, 1100), (1115, 100))  # octets of a frame, of the longest packet


def make(frame, longest):
    """The packets as they were sent, how many of them are damaged, and the recording."""
    chance, room, sent, starts, text = random.Random(1), frame - 8, [], [], bytearray()
    while len(text) < 4000000:
        length = chance.randrange(7, longest + 1)
        head, data = 100 << 32 | 3 << 30 | len(sent) % 16384 << 16 | length - 7, chance.randbytes(length - 6)
        sent.append(head.to_bytes(6, "big") + data)
        starts.append(len(text))
        text += (head ^ (chance.randrange(100) == 0) << chance.randrange(16)).to_bytes(6, "big") + data
    places, records = {it // room: it % room for it in reversed(starts)}, []
    for number in range(len(text) // room):
        head = 42 << 36 | number % 256 << 24 | number % 256 << 16 | places.get(number, reference.NO_PACKET_STARTS)
        octets = head.to_bytes(6, "big") + text[number * room : (number + 1) * room]
        records.append(octets + reference.crc_hqx(octets, 0xFFFF).to_bytes(2, "big"))
    whole = [(it, at) for it, at in zip(sent, starts) if at + len(it) <= len(records) * room]
    return [it[0] for it in whole], sum(text[at : at + 6] != it[:6] for it, at in whole), b"".join(records)


def figures(sent, reader):
    sent, given = Counter(sent), Counter(it[1] for it in reader.packets)
    wrong = given - sent
    found = Counter(lost=(sent - given).total(), wrong=wrong.total(), octets=sum(len(it) * n for it, n in wrong.items()))
    for octets, reason in re.findall(r" octets=(\d+) reason=(\S+)", "\n".join(reader.report_of(None))):
        found[reason] += int(octets)
    return " ".join(f"{key}={value}" for key, value in sorted(found.items()))


def main(folder):
    for number, (frame, longest) in enumerate(KINDS):
        sent, damaged, recording = make(frame, longest)
        Path(f"{folder}/lengths{number}").write_bytes(recording)
        for limit in (reference.LONGEST_PACKET, longest):
            name = Path(f"{folder}/lengths{number}.{limit}")
            name.write_text(f"spacecraft = 42\nframe_length = {frame}\nerror_control = true\nmax_packet = {limit}\n")
            found = figures(sent, reference.read_recording(reference.Settings(name), recording)[0])
            print(f"frames of {frame}, {len(sent)} packets of 7 to {longest}, {damaged} damaged, max_packet {limit}: {found}")


main(sys.argv[1])
