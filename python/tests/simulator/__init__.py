"""A simulated pass whose truth is known: a spacecraft, what it sends, stations, and what each records with which faults.

All is made from the standards: 132.0-B-3 (frames), 133.0-B-2 (packets), 131.0-B-3 (markers and randomizer), 301.0-B-4 (times)
and 232.0-B (the control word).  Nothing of the package or of the trials is used, so that this truth is independent of both.

    >>> house = Application(100, lengths=(20, 40), time="cuc")
    >>> craft = Spacecraft(42, (Channel(0, (house,), rate=3, ocf=True), Channel(7, kind="idle")), frame_length=64)
    >>> sent = send(craft, frames=1000, seed=1, resets=[700])
    >>> heard = hear(sent, Form(stamp=True), [Lost(100, 300), Twice(50), BitErrors(10, (99,))], seed=2)
    >>> truth = Truth(heard)
    >>> len(truth.good), truth.bad, [truth.fates()[it].word for it in (0, 10, 50, 100)]
    (700, [10], ['good', 'damaged', 'twice', 'lost'])
    >>> [(it.missing, it.lost) for it in truth.master_gaps()]
    [(1, 1), (255, -1), (44, 300), (68, 0)]

The loss of 300 frames is 44 by the master channel's count, and the reset looks like a loss of 68 frames.  What is random comes
from the seeds alone.  A recording whose octets or bits slip has no records: `passages` have its truth, with their places in bits.
"""

from .codes import MARKER, Clcw, encode_cds, encode_cuc, error_control, randomize
from .passes import Pass, make_hard_stream, make_pass, make_stream
from .spacecraft import (
    IDLE,
    Application,
    Channel,
    Piece,
    Sent,
    SentFrame,
    SentPacket,
    Spacecraft,
    make_header,
    make_packet,
    make_secondary,
    send,
)
from .station import (
    BitErrors,
    DamagedMarker,
    Fault,
    Foreign,
    Form,
    Heard,
    Inverted,
    Lost,
    LostOfChannel,
    Noise,
    Passage,
    Slip,
    Twice,
    hear,
)
from .truth import Fate, Given, TrueGap, Truth, cuttable

__all__ = [
    *("MARKER", "Clcw", "encode_cds", "encode_cuc", "error_control", "randomize"),
    *("Pass", "make_hard_stream", "make_pass", "make_stream"),
    *("IDLE", "Application", "Channel", "Piece", "Sent", "SentFrame", "SentPacket", "Spacecraft", "make_header"),
    *("make_packet", "make_secondary", "send"),
    *("BitErrors", "DamagedMarker", "Fault", "Foreign", "Form", "Heard", "Inverted", "Lost", "LostOfChannel", "Noise", "Passage"),
    *("Slip", "Twice", "hear"),
    *("Fate", "Given", "TrueGap", "Truth", "cuttable"),
]
