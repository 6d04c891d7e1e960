"""Reads forms as bidders send them, in a process of its own with limits of processor and memory:
what is sent may take longer to read than it took to send.

usage: python3 -m wdp.desk.reading PROGRAM RULES HOLDER

A request is a line of JSON and so many bytes as it says, and so is its answer.
"""
import json
import resource
import sys
from collections.abc import Sequence
from dataclasses import dataclass, field
from typing import Any, BinaryIO

from wdp.desk.sealing import Commitment, find_salt, make_salt, seal
from wdp.files import Unreadable
from wdp.office.explaining import explain, parse_faults
from wdp.office.faults import Fault
from wdp.office.findings import Finding
from wdp.office.located_faults import limit_faults, make_faults
from wdp.office.reading import parse_form_file
from wdp.office.sheets import File
from wdp.texts.accepted import AcceptedRules, parse_rules
from wdp.texts.tables import Records, compute_digest, decode

READY = b"ready\n"
SECONDS = 5  # of processor, for each form
MEMORY = 1024 * 1024 * 1024  # bytes
_NAME = "form"
_UNENDED = "the last row has no line end, as in a file that was cut off"


@dataclass(frozen=True)
class Standing:
    """What is known of the form that stands: its commitment, and the form itself if it came while
    this process ran, else the salt as it is sealed for the session that handed it in.
    """

    commitment: str = ""
    form: Commitment | None = None
    sealed_salt: bytes = b""

    def find_salt(self, digest: str, session_key: str) -> str | None:
        """The salt, if the form that stands is the one with this digest."""
        if self.form:
            return self.form.salt if self.form.digest == digest else None
        salt = find_salt(self.sealed_salt, session_key, self.commitment.encode())
        if salt is None:
            return None
        form = Commitment(digest, salt.hex())
        return form.salt if form.value == self.commitment else None

    def to_members(self) -> dict[str, Any]:
        """This as members of an object of JSON."""
        return {
            "commitment": self.commitment,
            "form": self.form,
            "sealed_salt": self.sealed_salt.hex(),
        }

    @classmethod
    def of_members(cls, members: dict[str, Any]) -> "Standing":
        """The standing form of such members."""
        form = members["form"]
        return cls(
            commitment=members["commitment"],
            form=Commitment(*form) if form else None,
            sealed_salt=bytes.fromhex(members["sealed_salt"]),
        )


@dataclass
class Reading:
    """A form as it was read: its text, as it is a part of the input, or its faults, each with its
    place in the file. For a form that is to be handed in `form` and `sealed` are there, too.
    """

    bidder: str = ""
    bids: int = 0
    changes: list[str] = field(default_factory=list)
    faults: list[tuple[str, str]] = field(default_factory=list)
    text: bytes = b""
    form: Commitment | None = None
    sealed: bytes = b""


def _name_file(data: bytes) -> str:
    """A name for what was sent: only workbooks are zipped."""
    return f"{_NAME}.xlsx" if data.startswith(b"PK\x03\x04") else f"{_NAME}.csv"


def _add_faults(reading: Reading, path: str, faults: Sequence[Fault]) -> None:
    """Adds faults, without the name that the file has here."""
    for fault in limit_faults(list(faults), path):
        place = fault.place.removeprefix(path).removeprefix(":")
        reading.faults.append((place, fault.text))


class Reader:
    """Reads forms under rules, which it takes from their text."""

    def __init__(self, program: str, rules_text: bytes, holder: bytes) -> None:
        self._program = program
        self._rules_text = rules_text
        self._holder = holder
        self.rules: AcceptedRules = parse_rules(Records(decode(rules_text)))

    def _read(self, data: bytes) -> tuple[Reading, File | None]:
        """A form's rows as text, or what is wrong with them before the program reads them."""
        path = _name_file(data)
        reading = Reading()
        try:
            file = parse_form_file(path, data, self.rules)
        except Unreadable as error:
            _add_faults(reading, path, [Fault(error.path, error.why)])
            return reading, None
        faults = list(file.faults)
        if not file.rows:
            faults.append(Fault(path, "it has no row"))
        elif not file.is_ended:
            faults.append(Fault(f"{path}:{file.rows[-1].line}", _UNENDED))
        _add_faults(reading, path, faults)
        reading.bidder = file.bidder
        reading.bids = max(len(file.rows) - 1, 0)
        reading.changes = file.changes
        reading.text = b"" if reading.faults else file.text
        return reading, file

    def read(self, data: bytes, session_key: str, standing: Standing) -> Reading:
        """A form that is to be handed in, sealed; the program hasn't judged it yet."""
        reading, _ = self._read(data)
        if not reading.faults:
            digest = compute_digest(reading.text)
            salt = standing.find_salt(digest, session_key) or make_salt()
            reading.form = Commitment(digest, salt)
            reading.sealed = seal(self._holder, session_key, reading.form, reading.text)
        return reading

    def check(self, data: bytes) -> Reading:
        """A form, with all its faults."""
        reading, file = self._read(data)
        if file and not reading.faults:
            text = b"%rules\n" + self._rules_text + b"%form\n" + reading.text
            explained = explain(self._program, text)
            self._locate(reading, file, explained.findings, explained.more)
        return reading

    def locate(self, data: bytes, lines: bytes) -> Reading:
        """A form with the faults that the program found, by the lines that it printed."""
        reading, file = self._read(data)
        if file:
            explained = parse_faults(lines)
            self._locate(reading, file, explained.findings, explained.more)
        return reading

    def _locate(self, reading: Reading, file: File, findings: Sequence[Finding], more: int) -> None:
        of_form = [finding for finding in findings if finding.part == "form"]
        others = [finding for finding in findings if finding.part != "form"]
        faults = [Fault(file.path, finding.refusal) for finding in others]
        faults += make_faults(of_form, file.path, file.rows, bidders=self.rules.bidders)
        _add_faults(reading, file.path, limit_faults(faults, file.path, more))

    def answer(self, request: dict[str, Any], data: bytes) -> Reading:
        """The answer to a request."""
        if request["do"] == "check":
            return self.check(data)
        if request["do"] == "locate":
            return self.locate(data, request["lines"].encode())
        standing = Standing.of_members(request["standing"])
        return self.read(data, request["session_key"], standing)


def format_answer(reading: Reading) -> bytes:
    """An answer as its bytes."""
    members = {
        "bidder": reading.bidder,
        "bids": reading.bids,
        "changes": reading.changes,
        "faults": reading.faults,
        "form": reading.form,
        "text": len(reading.text),
        "sealed": len(reading.sealed),
    }
    return json.dumps(members).encode() + b"\n" + reading.text + reading.sealed


def parse_head(line: bytes) -> tuple[Reading, int, int]:
    """An answer of its first line, and how many bytes of text and sealed text follow."""
    members = json.loads(line)
    reading = Reading(
        bidder=members["bidder"],
        bids=members["bids"],
        changes=members["changes"],
        faults=[(place, text) for place, text in members["faults"]],
        form=Commitment(*members["form"]) if members["form"] else None,
    )
    return reading, members["text"], members["sealed"]


def _allow_seconds() -> None:
    """Lets this process work for some seconds from now."""
    usage = resource.getrusage(resource.RUSAGE_SELF)
    used = usage.ru_utime + usage.ru_stime
    resource.setrlimit(resource.RLIMIT_CPU, (int(used) + 1 + SECONDS, resource.RLIM_INFINITY))


def serve(reader: Reader, source: BinaryIO, output: BinaryIO) -> None:
    """Answers requests to the end of the source, once it has said that it is ready."""
    output.write(READY)
    output.flush()
    while line := source.readline():
        request = json.loads(line)
        data = source.read(request["size"])
        _allow_seconds()
        try:
            answer = format_answer(reader.answer(request, data))
        except MemoryError:
            return
        output.write(answer)
        output.flush()


def main(arguments: list[str]) -> int:
    """Answers requests on standard input."""
    program, rules_path, holder = arguments
    resource.setrlimit(resource.RLIMIT_CORE, (0, 0))
    resource.setrlimit(resource.RLIMIT_AS, (MEMORY, MEMORY))
    with open(rules_path, "rb") as file:
        reader = Reader(program, file.read(), bytes.fromhex(holder))
    serve(reader, sys.stdin.buffer, sys.stdout.buffer)
    return 0


if __name__ == "__main__":
    sys.exit(main(sys.argv[1:]))
