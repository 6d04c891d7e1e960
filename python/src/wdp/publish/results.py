"""An auction's results as they are published: a page, tables as CSV and JSON, and the audit."""
import json
import os
from collections.abc import Mapping, Sequence
from dataclasses import dataclass
from fractions import Fraction
from pathlib import Path

from wdp.files import Unreadable, write_folder
from wdp.office.faults import format_lines, format_number
from wdp.publish.csv_files import make_csv_files
from wdp.publish.figures import Figures
from wdp.publish.picture import make_picture
from wdp.publish.sentences import make_sentences
from wdp.publish.signing import NAMESPACE, SIGNATURE, SUMS, Signer, format_sums
from wdp.publish.tables import BLANKS, make_tables
from wdp.texts.refusals import need_all

# the modules that the page needs
NEEDS: Mapping[str, Sequence[str]] = {"the page": ("jinja2",)}
_AUDIT = "audit.txt"
_TEMPLATE = Path(__file__).with_name("page.html.jinja")


@dataclass(frozen=True)
class Results:
    """The figures of an auction's results, and the audit that certifies them, if there is one."""

    figures: Figures
    audit: bytes | None

    def format_text(self) -> str:
        """The result in sentences, and the tables, with aligned columns, each with what is proved
        of it.
        """
        sentences = make_sentences(self.figures)
        head = [self.figures.title, *sentences.warnings, " ".join(sentences.result)]
        pieces = [format_lines(head)]
        for table in make_tables(self.figures):
            proofs = format_lines(sentences.proofs.get(table.name, ()))
            pieces.append(table.format_text() + proofs)
        return "\n".join(pieces)

    def make_files(self, signer: Signer | None = None) -> dict[str, bytes]:
        """The files by their names, with the sums of the others and their signature if somebody
        signs. Raises Missing without jinja2, and what the signer does.
        """
        files = make_csv_files(self.figures)
        files["results.json"] = _format_json(self.figures)
        files["results.html"] = _make_page(self.figures, is_signed=signer is not None)
        if self.audit is not None:
            files[_AUDIT] = self.audit
        if signer is not None:
            sums = format_sums(files)
            files |= {SUMS: sums, SIGNATURE: signer.sign(sums)}
        return files

    def write_files(
        self, folder: str, signer: Signer | None = None, *, replaces: bool = False
    ) -> int:
        """Writes the files into a folder, which is new or has these files alone, and returns how
        many they are. Other bytes are kept there unless this `replaces` them, and a folder that is
        signed is replaced only by one that is.

        Raises Unreadable if they can't be written, Missing, and what the signer does.
        """
        if signer is None and os.path.lexists(os.path.join(folder, SIGNATURE)):
            raise Unreadable(folder, "it is signed, and these files aren't; name a new folder")
        files = self.make_files(signer)
        write_folder(folder, files, ours=[*files, _AUDIT], replaces=replaces)
        return len(files)


def _make_plain(value: object) -> object:
    """A value as JSON has it: a record by its fields, and a fraction as a text such as `25/2`."""
    return str(value) if isinstance(value, Fraction) else vars(value)


def _format_json(figures: Figures) -> bytes:
    return (json.dumps(figures, indent=1, default=_make_plain) + "\n").encode()


def _make_page(figures: Figures, *, is_signed: bool) -> bytes:
    """The page; Missing without jinja2."""
    need_all(NEEDS)
    from jinja2 import StrictUndefined, Template

    template = Template(
        _TEMPLATE.read_text("utf-8"),
        autoescape=True,
        undefined=StrictUndefined,
        trim_blocks=True,
        lstrip_blocks=True,
        keep_trailing_newline=True,
    )
    page: str = template.render(
        vars(figures),
        sentences=make_sentences(figures),
        picture=make_picture(figures),
        tables=make_tables(figures),
        format_number=format_number,
        blanks=BLANKS,
        is_signed=is_signed,
        sums=SUMS,
        signature=SIGNATURE,
        namespace=NAMESPACE,
    )
    return page.encode()
