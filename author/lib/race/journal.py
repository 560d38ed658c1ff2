"""Keeps what a race played in a file of a study, so that the race goes on after a kill."""
import json, re
from typing import Annotated, TypedDict

from ..endings import Fault
from ..schema import Malformed, from_json
from ..writing import naming

# More than a line has.
MOST_RECORD_BYTES = 1 << 20
Block = Annotated[str, re.compile("[013]+")]


class Record(TypedDict):
    """What some settings made in the same blocks, and how long the race had run by then."""

    settings: list[list[int]]
    points: list[list[Block] | None]
    seconds: float


class Journal(list):
    """The records of a race, a line of JSON each in an open file. One that was cut is removed."""

    def __init__(self, file, shown):
        super().__init__()
        self.file, self.shown, whole_bytes = file, shown, 0
        while (line := file.readline(MOST_RECORD_BYTES)).endswith(b"\n"):
            super().append(self.read(line))
            whole_bytes += len(line)
        if len(line) == MOST_RECORD_BYTES:
            raise self.fault(f"{MOST_RECORD_BYTES} bytes or more")
        file.truncate(whole_bytes)

    def fault(self, what):
        return Fault(f"{self.shown}: line {len(self) + 1}: {what}", 2)

    def read(self, line):
        try:
            record = from_json(Record, line)
            if len(record["settings"]) == len(record["points"]):
                return record
            raise Malformed("a list of another length")
        except Malformed as fault:
            raise self.fault(fault) from None

    def append(self, record):
        """Writes a record. Unlike those of an earlier run it is not kept in memory."""
        with naming(self.shown):
            self.file.write(json.dumps(record, separators=(",", ":")).encode() + b"\n")
            self.file.flush()
