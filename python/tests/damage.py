"""Damaged certificates and inputs, to be judged beside right ones.

The same text and seed give the same damages.

Numbers are near to those of the text and words are what typing, copying and exporting make of them,
so most damaged lines can be read and are wrong in what they say; some certificates still show the
bound, as a multiplier that was raised may.
"""
import random
import re
from collections.abc import Callable, Sequence
from pathlib import Path

TEXTS = Path(__file__).resolve().parents[2] / "fixtures/damaged"
# accepted inputs of each version of the rules
ACCEPTED = [(TEXTS / f"version_{version}.txt").read_bytes() for version in (1, 2, 3)]
# what may come in the place of a field of an input, of one of its bytes, and of a word and a line
# of a certificate
_FIELDS = b'|0|1|00| 1|1 |-1|+1|1,5|1.5|10000|10001|1000000|1000001|1000000000000|1000000000001|x|Alpha|Delta|A|C|"1"|"|\xef\xbb\xbf|-|+'
_FIELDS += b"|999999999999999999|1000000000000000000|rules|category|bidder|pool|member|lot|2|3|4|%form|Low|High|a1|1a"
FIELDS = [*_FIELDS.split(b"|"), b"ABCDEFGHIJKLMNOP", b"ABCDEFGHIJKLMNOPQ"]
BYTES = [b"%c" % each for each in b',;\n\r"% +-019aAzZ\t\0\xff']
_WORDS = (
    b"0 -1 -0 +5 1e3 10e-1 0.5 1. . 1e61 1e-61 e1 0x1 --1 one \xff 1\r X1_1 C1 B1 X0_0 OBJ x1_1 "
)
_WORDS += b"split leaf Bound # \t"
WORDS = [
    *_WORDS.split(b" "),
    *(b"%d" % (sign * (10**18 + n)) for sign in (1, -1) for n in (0, 1)),
]
WORDS += [b"7" * 40, b"-" + b"9" * 40, b"0" * 31, b"0" * 29 + b"1", b""]
LINES = b"|# a comment| # not one|\t \t|bound 0|bound 1|split 0|end|\r|\0".split(b"|")


def change_piece(
    draw: random.Random, pieces: Sequence[bytes], others: Sequence[bytes]
) -> list[bytes]:
    """One piece is another one, missing, doubled or new, or two have changed places."""
    changed = list(pieces)
    place, other = draw.choices(range(len(changed) or 1), k=2)
    kind = draw.randrange(5)
    new = draw.choice(others)
    if kind == 0 and changed:
        changed[place], changed[other] = changed[other], changed[place]
    elif kind < 3:
        changed[place : place + kind] = [new]
    else:
        changed[place : place + 1] = changed[place : place + 1] * (2 * (kind - 3))
    return changed


def change_number(draw: random.Random, text: bytes) -> bytes:
    """One number is one more or one less, or of another size."""
    matches = list(re.finditer(rb"-?[0-9]{1,100}", text))
    if not matches:
        return text
    match = draw.choice(matches)
    n = int(match[0])
    others = [n + 1, n - 1, -n, n // 2, 2 * n, 10 * n, draw.randrange(100)]
    return text[: match.start()] + b"%d" % draw.choice(others) + text[match.end() :]


def change_line(
    draw: random.Random, text: bytes, separator: bytes, others: Sequence[bytes]
) -> bytes:
    """One piece of a line is changed."""
    lines = text.split(b"\n")
    place = draw.randrange(len(lines))
    lines[place] = separator.join(change_piece(draw, lines[place].split(separator), others))
    return b"\n".join(lines)


# (below the first sides of deep splits leaves want as many multipliers more)
OF_CERTIFICATE: dict[str, Callable[[random.Random, bytes], bytes]] = {
    "number": change_number,
    "word": lambda draw, text: change_line(draw, text, b" ", WORDS),
    "line": lambda draw, text: b"\n".join(change_piece(draw, text.split(b"\n"), LINES)),
    "after": lambda draw, text: text + draw.choice(LINES) + b"\n",
    "spaces": lambda draw, text: text.replace(b" ", draw.choice([b"  ", b"\t", b" \t "]), 3),
    "deep": lambda draw, text: b"split 0\n" * draw.choice([1, 2, 50, 5000]) + text,
    "cut": lambda draw, text: text[: draw.randrange(len(text) + 1)],
}


def damage_certificate(text: bytes, seed: str, number: object) -> tuple[bytes, list[str]]:
    """The damaged certificate of this number, and the names of its damages."""
    draw = random.Random(f"{seed} {number}")
    weights = (6, 6, 4, 1, 1, 1, 1)
    count = draw.choice([1, 1, 1, 2, 3])
    names = draw.choices(list(OF_CERTIFICATE), weights, k=count)
    for name in names:
        text = OF_CERTIFICATE[name](draw, text)
    return text, names


def damage_input(text: bytes, seed: int | str) -> bytes:
    """An input with one to three damages: of its lines, of a line's fields, or of bytes; or it ends
    early.
    """
    draw = random.Random(seed)
    for _ in range(draw.randrange(1, 4)):
        kind = draw.randrange(7)
        lines = text.splitlines(keepends=True)
        if kind == 0:
            text = b"".join(change_piece(draw, lines, lines or BYTES))
        elif kind < 6:
            text = change_line(draw, text, b",", FIELDS)
        else:
            place = draw.randrange(len(text) + 1)
            piece = b"".join(change_piece(draw, [text[place : place + 1]], BYTES))
            text = text[:place] + (piece + text[place + 1 :] if draw.randrange(16) else b"")
    return text
