"""A letter as a text and as a page."""
from collections.abc import Iterator
from pathlib import Path

from wdp.letters.content import Letter, Section
from wdp.office.faults import align_rows, format_lines, format_number
from wdp.texts.refusals import need

_TEMPLATE = Path(__file__).with_name("letter.html.jinja")


def format_text(letter: Letter) -> bytes:
    """A letter as a text."""
    lines = [letter.title, f"To {letter.name}"]
    for section in letter.sections:
        lines += ["", section.heading, "-" * len(section.heading)]
        for part in _list_parts(section):
            lines += ["", *part] if part else []
    return format_lines(lines).encode()


def _list_parts(section: Section) -> Iterator[list[str]]:
    """The parts of a section, each as lines."""
    for sentence in section.sentences:
        yield [sentence]
    yield [f"{name}: {value}" for name, value in section.facts.items()]
    for note in section.notes:
        yield [note]
    yield align_rows(section.rows) if section.rows else []
    for check in section.checks:
        yield [f"$ {check.command}", *check.output.splitlines()]


def format_page(letter: Letter) -> bytes:
    """A letter as an HTML page that loads nothing; Missing without jinja2."""
    need("a letter", "jinja2")
    from jinja2 import StrictUndefined, Template

    template = Template(
        _TEMPLATE.read_text("utf-8"),
        autoescape=True,
        undefined=StrictUndefined,
        trim_blocks=True,
        lstrip_blocks=True,
        keep_trailing_newline=True,
    )
    page: str = template.render(letter=letter, format_number=format_number)
    return page.encode()
