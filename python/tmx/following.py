"""A growing recording in steps whose outputs are files: what a station's loop leaves, whatever is ended in between."""

import fcntl
import hashlib
import os
import re
import shutil
import time
from collections.abc import Iterator
from contextlib import contextmanager
from dataclasses import dataclass
from pathlib import Path

from .checkpoints import Name, records_done
from .errors import Error
from .runs import Command, running
from .settings import Settings
from .source import Source
from .steps import record_length, step_words

STEP = re.compile(r"step-([0-9]{7,})\.chk")
LOST = re.compile(rb"mastergap .* missing=([0-9]+)|drop .* octets=([0-9]+)")
JOB = "job"  # the file of a folder that says of which job its steps are
OUTPUTS = {"packets": "packets", "extract": "pkt", "split": "split", "fields": "csv"}  # how a step's output ends, by command
DIFFERS = {"command": "command", "apid": "application", "definition": "definition", "beginning": "recording"}


class FolderError(Error):
    """A folder has steps of another job, or of a recording that isn't this one, or another process makes a step in it."""


@dataclass(frozen=True)
class Wanted:
    """What each step gives: a command of a job, and for `fields` the definition and the application."""

    command: str = "packets"
    definition: Name | None = None
    apid: int | None = None

    def job(self) -> dict[str, str]:
        """What has to be the same in each step."""
        found = {"command": self.command}
        if self.apid is not None:
            found["apid"] = str(self.apid)
        if self.definition is not None:
            found["definition"] = digest(Path(self.definition).read_bytes())
        return found

    def words(self) -> list[str]:
        words = [self.command]
        if self.definition is not None:
            words += ["--definition", os.fspath(self.definition)]
        return words if self.apid is None else [*words, "--apid", str(self.apid)]


class Step:
    """The files of a step: its output, which `split` makes a folder, its report, and its checkpoint."""

    def __init__(self, folder: Name, number: int, wanted: Wanted) -> None:
        ends = (OUTPUTS[wanted.command], "report", "chk")
        self.output, self.report, self.checkpoint = (Path(folder, f"step-{number:07}.{it}") for it in ends)
        self.wanted = wanted

    def remove(self) -> None:
        """Takes away what is there of it, the checkpoint first."""
        for file in (self.checkpoint, self.output, self.report):
            if file.is_dir():
                shutil.rmtree(file)
            else:
                file.unlink(missing_ok=True)

    def run(self, recording: Name, settings: Name | Settings, before: Path | None, lock: int) -> None:
        """The program gets the lock, and so holds it to its end, also where this process is killed."""
        words = [*self.wanted.words(), "--report", str(self.report), *step_words(self.checkpoint, before, None)]
        splits = self.wanted.command == "split"
        if splits:
            self.output.mkdir()
            words += ["--dir", str(self.output)]
        with open(os.devnull if splits else self.output, "wb") as out:
            with running(Source(recording), settings, Command(words, "end", out, gets=[lock])) as runs:
                runs.finish()


def digest(octets: bytes) -> str:
    return hashlib.sha256(octets).hexdigest()


def last_step(folder: Name) -> int:
    """The number of the last step that is whole, 0 without one."""
    found = (STEP.fullmatch(it) for it in os.listdir(folder))
    return max((int(it[1]) for it in found if it), default=0)


def done_in(folder: Name) -> int:
    """How many records the steps of a folder have, which may not be there yet."""
    last = last_step(folder) if os.path.isdir(folder) else 0
    return records_done(Path(folder, f"step-{last:07}.chk")) if last else 0


@contextmanager
def held(folder: Name) -> Iterator[int]:
    """Locks a folder, so that only one process makes a step in it.  Raises FolderError where another one does."""
    lock = os.open(folder, os.O_RDONLY)
    try:
        try:
            fcntl.flock(lock, fcntl.LOCK_EX | fcntl.LOCK_NB)
        except BlockingIOError:
            raise FolderError(f"{folder} is in use: another process makes a step in it") from None
        except OSError:
            pass  # the file system has no locks of folders, as NFS
        yield lock
    finally:
        os.close(lock)


def check_folder(recording: Name, length: int, folder: Name, wanted: Wanted) -> None:
    """Sees whether the steps of a folder are of this job, and of a recording that begins as this one does.

    The folder's file `job` keeps what has to be the same.  `length` is that of a record.  Raises FolderError.
    """
    path, last = Path(folder, JOB), last_step(folder)
    records = os.path.getsize(recording) // length
    if last and records < records_done(Path(folder, f"step-{last:07}.chk")):
        raise FolderError(
            f"{recording} has fewer records than the steps of {folder}: is it another recording? Name another folder"
        )
    if not records:
        return
    with open(recording, "rb") as file:
        job = wanted.job() | {"beginning": digest(file.read(length))}
    if not last or not path.exists():
        path.write_text(" ".join(f"{key}={value}" for key, value in job.items()) + "\n", encoding="ascii")
        return
    kept = {key: value for key, _, value in (it.partition("=") for it in path.read_text(encoding="ascii").split())}
    for key, value in job.items():
        if kept.get(key) != value:
            raise FolderError(f"{folder} has steps of another {DIFFERS[key]}: name another folder, or take the steps away")


def next_step(recording: Name, settings: Name | Settings, folder: Name, wanted: Wanted) -> Path | None:
    """Reads what has come of a recording since the last step.  The step's checkpoint, or None where no record has come.

    The step has files of its own in the folder: of `packets` `step-0000001.packets`, `.report` and `.chk`, then `step-0000002`
    and so on.  The checkpoint is written last, so a step that has one is whole; one that has none was ended, and is done again.
    Raises FolderError where the folder has steps of another job, or of another recording, or another process makes one.
    """
    os.makedirs(folder, exist_ok=True)
    with held(folder) as lock:
        if os.path.isfile(recording):
            check_folder(recording, record_length(settings), folder, wanted)
        last = last_step(folder)
        before = Path(folder, f"step-{last:07}.chk") if last else None
        step = Step(folder, last + 1, wanted)
        step.remove()
        step.run(recording, settings, before, lock)
        if records_done(step.checkpoint) > (records_done(before) if before else 0):
            return step.checkpoint
        step.remove()
    return None


def losses(report: Path) -> str:
    """What a step's report says of losses, in numbers."""
    bad = missing = dropped = 0
    with open(report, "rb") as file:
        for line in file:
            bad += line.startswith(b"bad ")
            if found := LOST.match(line):
                missing += int(found[1] or 0)
                dropped += int(found[2] or 0)
    return f"{bad} bad, {missing} frames missing, {dropped} octets dropped"


def steps(recording: Name, settings: Name | Settings, folder: Name, wanted: Wanted, interval: float) -> Iterator[Path]:
    """The checkpoint of each step, as the recording comes and grows.  After a step of nothing it waits for so many seconds."""
    while True:
        step = next_step(recording, settings, folder, wanted) if os.path.exists(recording) else None
        if step is not None:
            yield step
        else:
            time.sleep(interval)
