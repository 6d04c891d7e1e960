"""The forms that stand when a round is closed, opened by the holder of the key."""
from pathlib import Path

from cryptography.hazmat.primitives.asymmetric.x25519 import X25519PrivateKey

from wdp import files
from wdp.desk.journal import Entry, JournalReader, State, replay
from wdp.desk.sealing import unseal
from wdp.office.settled import FORMS, INPUT, OPENINGS, format_digests
from wdp.program import Limits, ask, find_filter
from wdp.texts.parts import MOST_OF_INPUT
from wdp.texts.refusals import Refused


def find_standing(entries: JournalReader) -> dict[str, Entry]:
    """The entry of each bidder's form that stands."""
    standing: dict[str, Entry] = {}
    for entry in entries:
        if entry.answer == "accepted":
            standing[entry.bidder] = entry
        elif entry.answer == "withdrawn":
            del standing[entry.bidder]
    return standing


def read_closed(program: str, journal: Path) -> State:
    """The state of a closed round; Refused if it is open, or the journal isn't complete."""
    state = replay(program, journal)
    if state.is_open:
        raise Refused(f"{journal}: the round isn't closed")
    if state.is_torn:
        raise Refused(f"{journal}: its end is torn, behind byte {state.end}")
    return state


def _make_openings(journal: Path, private: X25519PrivateKey, state: State) -> list[bytes]:
    """What `wdp-desk --settle` takes: each form that stands, with its salt."""
    openings = []
    with open(journal, "rb") as file:
        reader = JournalReader(file, state.end)
        for entry in find_standing(reader).values():
            try:
                salt, text = unseal(private, reader.read_sealed(entry), entry.commitment)
            except Refused as refused:
                why = f"entry {entry.entry}, of {entry.bidder}: {refused}"
                raise Refused(f"{journal}: {why}") from None
            openings.append(f"%opening {salt} {len(text)}\n".encode() + text)
    return openings


def open_forms(program: str, where: Path, private: X25519PrivateKey, output: str) -> int:
    """Writes the folder with the openings, the input and the digests of its forms; how many forms
    there are. Refused, with nothing written, by another key, or if the round isn't closed.
    """
    journal = where / "journal"
    settler = find_filter()
    state = read_closed(settler, journal)
    openings = _make_openings(journal, private, state)
    with files.temporary_folder("desk.") as folder:
        path = folder / OPENINGS
        path.write_bytes(b"".join(openings))
        words = ["--settle", str(journal), str(path)]
        text = ask(settler, words, b"", limits=Limits(MOST_OF_INPUT))
    forms = format_digests(program, text)
    files.write_folder(output, {OPENINGS: b"".join(openings), INPUT: text, FORMS: forms})
    return len(openings)
