"""Recordings of TM transfer frames (CCSDS 132.0-B-3) as Python values.

    import tmx
    recording = tmx.Recording("pass.rec", settings="settings.toml")
    for packet in recording.packets():
        print(packet.record, packet.channel, packet.apid, packet.count, packet.octets)

The program `tmx` does the work: the one that the environment variable TMX names, else the one beside this package, else the
one on the PATH.  docs/PYTHON.md is the guide.
"""

from . import xtce
from .checkpoints import CutBackError, cut_back, records_done
from .decoding import Polynomial, Spline
from .definition import Column
from .engine import Engine, Given
from .errors import (
    CheckpointError,
    ClosedError,
    ColumnError,
    ConsumedError,
    DefinitionError,
    DisagreementError,
    Error,
    FileError,
    KilledError,
    LibraryMissingError,
    OutOfMemoryError,
    ProgramError,
    ProgramMissingError,
    RunError,
    SettingsError,
    TmxWarning,
    UsageError,
    VersionError,
)
from .fields import Fields
from .groups import JoinedGroup
from .leap_seconds import LeapSecondsError
from .lines import (
    ApplicationCounts,
    Bad,
    Broken,
    ChannelCounts,
    Dropped,
    FaultCounts,
    Frame,
    Gap,
    Group,
    LossCounts,
    MasterCounts,
    MasterGap,
    Packet,
    RecordingCounts,
    SequenceGap,
    Short,
    ShortPacket,
    Stray,
    Vca,
)
from .loss_map import LossMap, LossMapError
from .markers import Cut, Slip, cut
from .packets import PacketArray
from .probing import Fit, Probe, probe
from .programs import VERSION as __version__
from .programs import Program, program
from .recording import Item, Recording
from .settings import Settings
from .summary import Summary
from .time_codes import Ticks, TimeCode
from .xtce import XtceError

__all__ = [
    "ApplicationCounts",
    "Bad",
    "Broken",
    "ChannelCounts",
    "CheckpointError",
    "ClosedError",
    "Column",
    "ColumnError",
    "ConsumedError",
    "Cut",
    "CutBackError",
    "DefinitionError",
    "DisagreementError",
    "Dropped",
    "Engine",
    "Error",
    "FaultCounts",
    "Fields",
    "FileError",
    "Fit",
    "Frame",
    "Gap",
    "Given",
    "Group",
    "Item",
    "JoinedGroup",
    "KilledError",
    "LeapSecondsError",
    "LibraryMissingError",
    "LossCounts",
    "LossMap",
    "LossMapError",
    "MasterCounts",
    "MasterGap",
    "OutOfMemoryError",
    "Packet",
    "PacketArray",
    "Polynomial",
    "Probe",
    "Program",
    "ProgramError",
    "ProgramMissingError",
    "Recording",
    "RecordingCounts",
    "RunError",
    "SequenceGap",
    "Settings",
    "SettingsError",
    "Short",
    "ShortPacket",
    "Slip",
    "Spline",
    "Stray",
    "Summary",
    "Ticks",
    "TimeCode",
    "TmxWarning",
    "UsageError",
    "Vca",
    "VersionError",
    "XtceError",
    "cut",
    "cut_back",
    "probe",
    "program",
    "records_done",
    "xtce",
]
