"""What is wrong with an input, and which bids of one are in no program, in members and in words."""
import re
from collections import defaultdict
from dataclasses import dataclass, field

from wdp.frames import Columns, Tabular, make_columns
from wdp.office.faults import decode_escapes
from wdp.texts.refusals import Refused

# faults of an input that have members of their own
BYTES_BEFORE = "bytes before the first part"
NOT_KNOWN = "part not known"
PartKey = tuple[str, int | None]  # the kind of a part, and of a form its number


@dataclass(frozen=True)
class Finding:
    """A fault, by the members of the line that `wdp explain --json` prints for it.

    - `part` is rules, form, groups or input, `number` that of the form, or of the part that isn't
      known, from 1
    - `fault` is its name, as RepeatedPackage, or its words, `code` its number, 13 there
    - `record` is that of rules or a form, or the line of groups, from 1, 0 if the text has none,
      and `earlier_bid` the bid that has the same package
    - `field` is the faulty field or name, from 1, `found` what is there, with escapes as the program
      prints them, which `is_cut` after 40 bytes
    - `wrong` is what is wrong with that, or with the record or the part, in words
    """

    part: str
    fault: str
    number: int | None = None
    code: int | None = None
    record: int | None = None
    earlier_bid: int | None = None
    field: int | None = None
    found: str | None = None
    is_cut: bool = False
    wrong: str | None = None

    @property
    def kind(self) -> str | None:
        """The name of the fault; None if it has but words, as those of an input have."""
        return None if self.part == "input" else self.fault

    @property
    def refusal(self) -> str:
        """The program's line for the fault, without `wdp: ` and without the cause."""
        if self.fault == NOT_KNOWN:
            return f"input: part {self.number} not known"
        text = f"form {self.number}: " if self.part == "form" else f"{self.part}: "
        if self.code is not None:
            text += f"{self.code} "
        text += self.fault
        if self.record is not None:
            what = "line" if self.part == "groups" else "record"
            text += f" at {what} {self.record}"
        if self.earlier_bid is not None:
            text += f", earlier bid {self.earlier_bid}"
        return text

    @property
    def refused(self) -> Refused:
        """The refusal of an input that has this fault alone."""
        return Refused(f"wdp: {self.refusal}")

    @property
    def cause(self) -> str | None:
        """What is there, and what is wrong with it, in words; None if the program has none."""
        if self.wrong is None:
            return None
        if self.found is None:
            # (the program has no singular)
            return re.sub("^1 fields ", "1 field ", self.wrong)
        dots = "..." if self.is_cut else ""
        shown = f"'{decode_escapes(self.found)}'{dots}"
        if self.fault == BYTES_BEFORE:
            return f"the text begins with {shown} and {self.wrong}"
        return f"{shown} {self.wrong}"


@dataclass(frozen=True)
class LeftOutBid:
    """A bid that is in no program, or a form that a later one replaces: the bidder, the number of
    the one or the other, from 1, and why that is so, as `is dominated by bid 1`.
    """

    bidder: str
    words: str
    bid: int | None = None
    form: int | None = None

    @property
    def why(self) -> str:
        """Which bid or form it is, and why that is so: `bid 3 is dominated by bid 1`."""
        which = f"bid {self.bid}" if self.form is None else f"form {self.form}"
        return f"{which} {self.words}"


@dataclass(frozen=True)
class Explained(Tabular):
    """All faults in order, and how many more are counted; if there is none, the bids in no
    program.
    """

    findings: list[Finding] = field(default_factory=list)
    more: int = 0
    bids: list[LeftOutBid] = field(default_factory=list)

    @property
    def left_out(self) -> list[tuple[str, str]]:
        """Of each bid in no program the bidder and why."""
        return [(bid.bidder, bid.why) for bid in self.bids]

    def _columns(self) -> Columns:
        if self.bids:
            return make_columns(["bidder", "why"], self.left_out)
        rows = [
            (
                finding.part,
                finding.number,
                finding.kind,
                finding.record or None,
                finding.field,
                finding.cause,
            )
            for finding in self.findings
        ]
        return make_columns(["part", "number", "kind", "record", "field", "cause"], rows)

    def by_part(self) -> defaultdict[PartKey, list[Finding]]:
        """The findings of each part, in their order."""
        parts: defaultdict[PartKey, list[Finding]] = defaultdict(list)
        for finding in self.findings:
            parts[finding.part, finding.number].append(finding)
        return parts
