"""Workbooks of which some bytes are changed."""
import io
import random
import re
import zipfile

_ATTRIBUTE = re.compile(rb"""=(?:"[^"]*"|'[^']*')""")
_ODD = [
    b"",
    b"0",
    b"-1",
    b" 1",
    b"1e9",
    b"99999999999999999999",
    b"true",
    b"A1:B",
    b"\xff",
    b"&#0;",
    b"%",
    b"NaN",
]
_ENCODINGS = [b"nonsense", b"shift_jis", b"utf-7", b"utf-16", b"gb18030", b"cp037", b""]
_PIECES = [
    b"<row/>",
    b"<c/>",
    b"</c>",
    b"<",
    b">",
    b"&amp;",
    b"<!DOCTYPE x>",
    b"\0",
    b"<!--",
    b"]]>",
    b"<x:y/>",
    b"<mc:Choice/>",
]


def _change_bytes(data: bytes, draw: random.Random) -> bytes:
    """A few bytes replaced, doubled, cut out or put in."""
    place = draw.randrange(len(data) or 1)
    size = draw.choice([1, 1, 1, 2, 4, 30])
    piece = data[place : place + size]
    made = draw.choice([bytes([draw.randrange(256)]), piece * 2, b"", draw.choice(_PIECES) + piece])
    return data[:place] + made + data[place + size :]


def _change_text(data: bytes, draw: random.Random) -> bytes:
    """An attribute's value replaced by an odd one, or by another one's; an encoding; a few bytes."""
    values = list(_ATTRIBUTE.finditer(data))
    kind = draw.randrange(4)
    if kind == 0:
        encoding = draw.choice(_ENCODINGS)
        return re.sub(rb'encoding="[^"]*"', b'encoding="' + encoding + b'"', data, count=1)
    if kind == 3 or not values:
        return _change_bytes(data, draw)
    value = draw.choice(values)
    other = b'="' + draw.choice(_ODD) + b'"' if kind == 1 else draw.choice(values)[0]
    return data[: value.start()] + other + data[value.end() :]


def mutate(data: bytes, draw: random.Random) -> bytes:
    """The bytes of a workbook with one to eight changes of its parts, or of its archive."""
    try:
        with zipfile.ZipFile(io.BytesIO(data)) as archive:
            parts = {entry.filename: archive.read(entry) for entry in archive.infolist()}
    except (zipfile.BadZipFile, NotImplementedError, RuntimeError, zipfile.LargeZipFile):
        parts = {}
    if parts and draw.random() < 0.6:
        for _ in range(draw.randrange(1, 9)):
            name = draw.choice(sorted(parts))
            parts[name] = _change_text(parts[name], draw)
        packed = io.BytesIO()
        with zipfile.ZipFile(packed, "w", zipfile.ZIP_DEFLATED) as archive:
            for name, text in parts.items():
                archive.writestr(name, text)
        return packed.getvalue()
    for _ in range(draw.randrange(1, 9)):
        near_end = draw.random() < 0.5 and len(data) > 600
        head = data[:-600] if near_end else b""
        data = head + _change_bytes(data[len(head) :], draw)
    return data
