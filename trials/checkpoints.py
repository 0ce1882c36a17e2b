#!/usr/bin/env python3
"""Gives tmx checkpoints that were altered, and looks at how it refuses them.

    checkpoints.py TMX SETTINGS RECORDING CHECKPOINT

Each single bit is flipped, the version becomes each other one, those that are read too, and the checkpoint is cut after each
octet.  Prints how many were refused, and what is wrong.
"""

import os
import subprocess
import sys
from concurrent.futures import ThreadPoolExecutor

LEAST = {1: 33, 2: 36, 3: 37}  # octets of a checkpoint, by version


def refusal(words, number, octets):
    """What tmx says of these octets as a checkpoint, and its status."""
    name = f"altered.{number}"
    with open(name, "wb") as file:
        file.write(octets)
    tmx, settings, recording = words
    ran = subprocess.run(
        [tmx, "packets", "--settings", settings, "--resume", name, recording], capture_output=True, check=False
    )
    os.remove(name)
    if ran.stdout:
        return "it printed packets"
    return f"{ran.stderr.decode()}{ran.returncode}"


def fault_of(octets):
    """Of a checkpoint that was altered so that its check no longer holds, wherever it is read as far as that."""
    if len(octets) < 33:
        return "short"
    if octets[:4] != b"TMXC":
        return "magic"
    if octets[4] not in LEAST:
        return "version"
    return "short" if len(octets) < LEAST[octets[4]] else "check"


def altered(whole):
    for bit in range(len(whole) * 8):
        octets = bytearray(whole)
        octets[bit // 8] ^= 1 << bit % 8
        yield bytes(octets)
    for version in range(256):
        if version != whole[4]:
            yield whole[:4] + bytes([version]) + whole[5:]
    for length in range(len(whole)):
        yield whole[:length]


def main(words):
    with open(words[3], "rb") as file:
        whole = file.read()
    trials = list(altered(whole))
    with ThreadPoolExecutor(4) as pool:
        found = pool.map(lambda it: refusal(words[:3], *it), enumerate(trials))
        wrong = [
            f"{number}: {said!r}, wanted {fault_of(octets)}"
            for number, (octets, said) in enumerate(zip(trials, found))
            if said != f"tmx: checkpoint: {fault_of(octets)}\n2"
        ]
    print(f"{len(trials)} altered checkpoints, {len(wrong)} not refused as they have to be")
    if wrong:
        sys.exit("\n".join(wrong[:5]))


if __name__ == "__main__":
    main(sys.argv[1:])
