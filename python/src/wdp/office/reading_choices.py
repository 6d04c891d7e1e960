"""What an office says of its files beside their paths."""
from collections.abc import Sequence
from dataclasses import dataclass


@dataclass(frozen=True)
class Choices:
    """How an auction's files are read, as the options of `wdp-office gather` say it.

    Of a bidder's files that of `use` counts; else with `last_wins`, which is `time`, the one that
    was changed last. With `any_file_name` a file's name needn't name a bidder. The bidders of `allow_missing` have no
    form, the forms of `allow_empty` no bid, and the files of `allow_unended` no line end at their
    ends. `expect` is the path of a file with the number of each form's bids, and `sheet` the name
    of the sheet of each workbook.
    """

    use: Sequence[str] = ()
    last_wins: str | None = None
    any_file_name: bool = False
    allow_missing: Sequence[str] = ()
    allow_empty: Sequence[str] = ()
    allow_unended: Sequence[str] = ()
    expect: str | None = None
    sheet: str | None = None

    def has_any(self) -> bool:
        """Whether anything is said."""
        return any(vars(self).values())
