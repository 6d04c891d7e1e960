"""A new desk: its folder with the rules, the keys of the sessions, and the key that signs."""
import os
import secrets
from pathlib import Path

from wdp import files
from wdp.desk.clock import read_clock
from wdp.desk.folder import DeskFolder, sync_folder, write_new
from wdp.desk.keys import Keys, format_rows, list_sessions
from wdp.desk.receipts import Signer
from wdp.desk.sealing import read_public_key
from wdp.office.auction_files import AuctionFiles
from wdp.office.faults import format_lines
from wdp.office.reading_choices import Choices
from wdp.texts.accepted import AcceptedRules
from wdp.texts.refusals import Refused, WrongArgument

_NAME_SIZE = 8  # bytes of a round's name


def read_rules(program: str, path: str) -> tuple[bytes, AcceptedRules]:
    """The text of the rules in a file, as it is in the input; Refused with all faults."""
    auction = AuctionFiles(program, Choices())
    if not auction.read_rules(path):
        raise Refused(format_lines(auction.faults).rstrip("\n"))
    return auction.rules_file.text, auction.rules


def make_desk(program: str, where: Path, rules_path: str, *, closes: int, holder: str) -> int:
    """Makes the folder of a desk; how many keys it has. Refused, with nothing made, if the folder
    is there, the rules are refused or the holder's key is none.
    """
    if os.path.lexists(where):
        raise Refused(f"{where}: it is there already; name a new folder")
    if closes <= read_clock():
        raise WrongArgument("--closes is a time that is over")
    text, rules = read_rules(program, rules_path)
    public = read_public_key(holder).hex()
    made = where.with_name(f"{files.WRITING}{secrets.token_hex(8)}")
    with files.map_errors(str(where)):
        made.mkdir(mode=0o700)
    try:
        folder = DeskFolder(made)
        signer = Signer()
        rows = [
            ("round", secrets.token_hex(_NAME_SIZE)),
            ("closes", str(closes)),
            ("holder", public),
            ("desk", signer.public),
        ]
        write_new(folder.path("round.csv"), format_rows(rows))
        write_new(folder.path("rules.csv"), text)
        write_new(folder.path("signing.key"), signer.private)
        sessions = list_sessions(rules)
        Keys.make(folder, sessions)
        with files.map_errors(str(where)):
            os.rename(made, where)
            sync_folder(where.absolute().parent)
    finally:
        files.remove(made)
    return len(sessions)
