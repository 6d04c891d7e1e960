"""The parts of a workbook: files of an archive, and XML texts, each read within limits.

What the library of archives or that of XML raises is a BadWorkbook. No work is done for more than
the limits allow: an entry of the archive is unpacked up to its limit, whatever size it states.
"""
import posixpath
import re
import struct
import zipfile
from collections import defaultdict
from collections.abc import Iterator, Mapping
from contextlib import contextmanager
from dataclasses import dataclass
from io import BytesIO
from xml.etree.ElementTree import Element, ParseError, TreeBuilder, XMLParser, XMLPullParser

from wdp.office.faults import quote
from wdp.office.known import HINT, KNOWN, find_unknown, find_unknown_attributes

NO_WORKBOOK = "it is no workbook that can be read"
MAIN = (
    "http://schemas.openxmlformats.org/spreadsheetml/2006/main",
    "http://purl.oclc.org/ooxml/spreadsheetml/main",
)
_LINKS = (
    "http://schemas.openxmlformats.org/officeDocument/2006/relationships",
    "http://purl.oclc.org/ooxml/officeDocument/relationships",
)
_RELATIONS = "http://schemas.openxmlformats.org/package/2006/relationships"
_COMPATIBILITY = "http://schemas.openxmlformats.org/markup-compatibility/2006"
_XML = "http://www.w3.org/XML/1998/namespace"
# of drawings, themes and comments
_OTHERS = (
    "http://schemas.openxmlformats.org/drawingml/2006/spreadsheetDrawing",
    "http://purl.oclc.org/ooxml/drawingml/spreadsheetDrawing",
    "http://schemas.openxmlformats.org/drawingml/2006/main",
    "http://purl.oclc.org/ooxml/drawingml/main",
    "http://schemas.microsoft.com/office/spreadsheetml/2018/threadedcomments",
)
_PREFIXES = {_XML: "xml:", _COMPATIBILITY: "mc:", **dict.fromkeys(_LINKS, "r:")}

_PASSWORD = "it is an old workbook, or one with a password; save it as .xlsx without one, or as CSV"
_MOST_ENTRIES = 4_096  # of the archive
_MOST_UNPACKED = 64 * 1024 * 1024  # bytes of all that a workbook holds, unpacked
_MOST_OF_A_PART = 16 * 1024 * 1024  # bytes of what is read of it: one XML text
_MOST_ELEMENTS = 500_000  # of all parts that are read
_MOST_ALIKE = 9  # elements in one that others are compared with
_MOST_IGNORED = 100  # names of a part that mean nothing to a reader that doesn't know them
_MOST_KEPT = 150_000  # elements and attributes of a part, beside those of rows that are read
_LONGEST_PIECE = 64 * 1024  # bytes from one tag to the next: of a text, a comment, or a tag
_CHUNK = 64 * 1024  # bytes that the parser gets at once
_BEGINNING = 1024  # bytes that it gets at once until the root begins
_DIRECTORY_ENTRY = b"PK\x01\x02"
_DIRECTORY_END = b"PK\x05\x06"
_END = struct.Struct("<12xIIH")  # size and place of an archive's directory, and size of a comment
_ROUNDABOUT = re.compile(r"(?:^|/)\./|[^./][^/]*/\.\.?(?:/|$)|.//")
_ENCODING = re.compile(rb"""<\?xml[^>]*?encoding\s*=\s*["']([^"']*)["']""")
_ENCODINGS = (b"utf-8", b"us-ascii", b"ascii")


class BadWorkbook(Exception):
    """Why a part isn't read, with the cell if it is one of a sheet."""

    def __init__(self, why: str, cell: str = "") -> None:
        super().__init__(why)
        self.why = why
        self.cell = cell


@contextmanager
def _map_library_errors() -> Iterator[None]:
    """Within this, whatever a library raises is a BadWorkbook."""
    try:
        yield
    except BadWorkbook:
        raise
    except ParseError as error:
        raise BadWorkbook(f"its XML is broken: {error}") from None
    except Exception as error:
        raise BadWorkbook(f"{NO_WORKBOOK}: {type(error).__name__}") from None


@dataclass
class Budget:
    """How much may still be read of a workbook: bytes, unpacked, and elements."""

    size: int = _MOST_UNPACKED
    elements: int = _MOST_ELEMENTS

    def unpack(self, size: int) -> None:
        """Raises BadWorkbook if so many bytes are too many."""
        self.size -= size
        if self.size < 0:
            raise BadWorkbook(
                f"what is read of it has more than {_MOST_UNPACKED:,} bytes, unpacked"
            )

    def take(self, count: int) -> None:
        """Raises BadWorkbook if so many elements are too many."""
        self.elements -= count
        if self.elements < 0:
            raise BadWorkbook(f"its XML has more than {_MOST_ELEMENTS:,} elements")


def _check_text(data: bytes) -> None:
    """Raises BadWorkbook if an XML text isn't one that a spreadsheet writes."""
    found = _ENCODING.match(data.removeprefix(b"\xef\xbb\xbf"))
    if b"\0" in data[:4] or found and found[1].lower() not in _ENCODINGS:
        raise BadWorkbook("its XML isn't in UTF-8, as spreadsheets write it")
    if b"<!DOCTYPE" in data:
        raise BadWorkbook("its XML has a document type, as no spreadsheet writes")
    if data.count(b"<") > 2 * _MOST_ELEMENTS:
        raise BadWorkbook(f"its XML has more than {_MOST_ELEMENTS:,} elements")
    last = 0
    while last + _LONGEST_PIECE < len(data):
        following = data.rfind(b"<", last + 1, last + 1 + _LONGEST_PIECE)
        if following < 0:
            most = f"{_LONGEST_PIECE:,} bytes"
            raise BadWorkbook(f"its XML has a text, a tag or a comment of more than {most}")
        last = following


def _read_root(data: bytes) -> tuple[Element, Mapping[str, str]]:
    """The root of an XML text as it begins, and the namespaces that it names, by their prefixes."""
    parser = XMLPullParser(("start-ns", "start"))
    namespaces: dict[str, str] = {}
    for begin in range(0, len(data), _BEGINNING):
        parser.feed(data[begin : begin + _BEGINNING])
        for kind, found in parser.read_events():
            if kind == "start":
                return found, namespaces
            namespaces[found[0]] = found[1]
    parser.close()
    raise BadWorkbook(f"{NO_WORKBOOK}: its XML has no element")


def _count_elements(text: bytes) -> int:
    """How many elements begin in a piece of an XML text, or more, if one of its comments has some."""
    return text.count(b"<") - text.count(b"</") - text.count(b"<!") - text.count(b"<?")


def _count_kept(root: Element) -> int:
    """How many elements and attributes a tree has."""
    elements = list(root.iter())
    return len(elements) + sum(map(len, map(Element.keys, elements)))


def _find_namespace(root: Element) -> str:
    """The namespace of a root, which is one that a part of a workbook has."""
    namespace = root.tag.partition("}")[0][1:] if root.tag.startswith("{") else ""
    if namespace not in (*MAIN, _RELATIONS, *_OTHERS):
        raise BadWorkbook(f"{NO_WORKBOOK}: its XML begins with {quote(root.tag)}")
    return namespace


def _list_ignorable(root: Element, namespaces: Mapping[str, str]) -> Iterator[str]:
    """The namespaces that a reader ignores if it doesn't know them."""
    for prefix in root.get(f"{{{_COMPATIBILITY}}}Ignorable", "").split():
        namespace = namespaces.get(prefix, "")
        if not namespace or namespace in (*MAIN, *_LINKS, _COMPATIBILITY, _XML):
            raise BadWorkbook(f"its XML ignores {quote(prefix)}, which isn't understood")
        yield namespace


class XmlPart:
    """An XML text, read from its beginning. Some elements come one by one, and aren't kept; what
    is left when all are read is a tree.

    Names are given without the part's own namespace; those of links, of XML and of compatibility
    have a prefix in place of theirs: `r:id`, `xml:space`, `mc:Ignorable`.
    """

    def __init__(self, data: bytes, budget: Budget) -> None:
        _check_text(data)
        with _map_library_errors():
            root, namespaces = _read_root(data)
        self.data = data
        self.budget = budget
        self.root = root
        self._own = _find_namespace(root)
        self._ignorable = set(_list_ignorable(root, namespaces))
        self._added = 0
        self._ignored: set[str] = set()
        self._names: dict[str, str] = {}
        # the attributes that are known of elements, by the elements' names, and what elements are
        # known to have in them: how many, the name, and the names in it
        self._known: defaultdict[str, set[str]] = defaultdict(set)
        self._known_elements: set[tuple[int | str, ...]] = set()

    def read(self) -> Element:
        """The tree of the whole text."""
        for _ in self.iterate(None, ""):
            pass
        return self.root

    def iterate(self, container: str | None, tag: str) -> Iterator[Element]:
        """The elements of this name, one by one, that are in the root, or in a container of it."""
        walk = _Walk(self, container, tag)
        for is_ended in self._parse():
            yield from walk.take(is_ended=is_ended)

    def _parse(self) -> Iterator[bool]:
        """Parses the text piece by piece, each of which adds to the tree; whether it is the last."""
        builder = TreeBuilder()
        # (what the root is put into, so that it is there as soon as it begins)
        holder = builder.start("", {})
        parser = XMLParser(target=builder)
        for begin in range(0, len(self.data) + 1, _CHUNK):
            is_ended = begin + _CHUNK > len(self.data)
            piece = self.data[begin : begin + _CHUNK]
            with _map_library_errors():
                parser.feed(piece)
                if is_ended:
                    builder.end("")
                    parser.close()
            if len(holder):
                self.root = holder[0]
            self._count(piece)
            yield is_ended

    def _count(self, piece: bytes) -> None:
        """Counts the elements of a piece. Each time as many of them and of attributes may have been
        added as may be kept, what is kept is counted.
        """
        count = _count_elements(piece)
        self.budget.take(count)
        self._added += count + piece.count(b"=")
        if self._added > _MOST_KEPT:
            self._added = 0
            if _count_kept(self.root) > _MOST_KEPT:
                most = f"{_MOST_KEPT:,} elements and attributes"
                raise BadWorkbook(f"its XML has more than {most} beside its rows, or in one row")

    def tag(self, name: str) -> str:
        """The tag of an element that has the part's own namespace."""
        return f"{{{self._own}}}{name}"

    def name(self, tag: str) -> str:
        """The name of an element; one without any namespace is none that a part has."""
        if tag not in self._names:
            namespace, _, local = tag.rpartition("}")
            prefix = {**_PREFIXES, self._own: ""}.get(namespace[1:]) if namespace else None
            self._names[tag] = f"{{}}{tag}" if not namespace else tag
            if prefix is not None:
                self._names[tag] = f"{prefix}{local}"
        return self._names[tag]

    def attribute(self, name: str) -> str:
        """The name of an attribute; the part's own have no namespace."""
        namespace, _, local = name.rpartition("}")
        prefix = _PREFIXES.get(namespace[1:]) if namespace else None
        return name if prefix is None else f"{prefix}{local}"

    def check(self, element: Element, cell: str = "") -> None:
        """Raises BadWorkbook if something in an element isn't known, perhaps with a cell of it. What
        other elements have had isn't looked up again.
        """
        inner = [*element, *element[0]] if len(element) == 1 else [*element]
        names = (len(element), element.tag, *[each.tag for each in inner])
        is_flat = len(inner) < _MOST_ALIKE and not any(map(len, inner[len(element) == 1 :]))
        if is_flat and names in self._known_elements and all(map(self.knows, (element, *inner))):
            return
        self._check_names(element, cell)
        # (nothing was looked at within an element that may be ignored)
        if is_flat and all(self.name(each.tag) in KNOWN for each in (element, *inner)):
            self._known_elements.add(names)
            for each in (element, *inner):
                self._known[each.tag].update(each.keys())

    def knows(self, element: Element) -> bool:
        """Whether other elements of this name have had all attributes of this one."""
        return self._known[element.tag].issuperset(element.keys())

    def _check_names(self, element: Element, cell: str) -> None:
        for holder, why in find_unknown(element, self):
            is_cell = cell and self.name(holder.tag) == "c"
            raise BadWorkbook(why, holder.get("r", cell)[:10] if is_cell else cell)

    def check_attributes(self, element: Element, cell: str) -> None:
        """Raises BadWorkbook, with a cell, if an attribute of an element isn't known."""
        if not self.knows(element):
            for why in find_unknown_attributes(element, self):
                raise BadWorkbook(why, cell)
            self._known[element.tag].update(element.keys())

    def refuse(self, element: Element, within: str, cell: str) -> None:
        """Raises BadWorkbook, with a cell, for an element that isn't known, unless it means nothing
        to a reader that doesn't know it.
        """
        if not self.is_ignorable(element.tag):
            name = quote(element.tag.removeprefix("{").replace("}", " "))
            why = f"in {within!r} there is {name}, which isn't understood{HINT}"
            raise BadWorkbook(why, cell)

    def is_ignorable(self, name: str) -> bool:
        """Whether a name is one that a reader ignores if it doesn't know its namespace."""
        is_it = name.startswith("{") and name[1:].partition("}")[0] in self._ignorable
        if is_it:
            self._ignored.add(name)
            if len(self._ignored) > _MOST_IGNORED:
                raise BadWorkbook(
                    f"its XML has more than {_MOST_IGNORED} names that may be ignored"
                )
        return is_it


@dataclass(slots=True)
class _Walk:
    """Where the reading of a part is, which looks for elements of one name in the root, or in a
    container of it: at which element of the root, and how many others before it in the container
    are kept.
    """

    part: XmlPart
    container: str | None
    tag: str
    place: int = 0
    others: int = 0

    def take(self, *, is_ended: bool) -> Iterator[Element]:
        """The elements that are complete by now."""
        root = self.part.root
        if self.container is None:
            yield from self._take_from(root, is_ended=is_ended)
            return
        while self.place < len(root):
            holder = root[self.place]
            is_open = not is_ended and self.place == len(root) - 1
            if self.part.name(holder.tag) == self.container:
                yield from self._take_from(holder, is_ended=not is_open)
            if is_open:
                return
            self.place += 1
            self.others = 0

    def _take_from(self, holder: Element, *, is_ended: bool) -> Iterator[Element]:
        """The complete elements of a holder, which isn't kept any longer; the last one may not be
        complete.
        """
        begin = self.others
        end = len(holder) - (not is_ended)
        found = holder[begin : max(begin, end)]
        is_wanted = [self.part.name(each.tag) == self.tag for each in found]
        others = [each for each, is_it in zip(found, is_wanted, strict=True) if not is_it]
        holder[begin : begin + len(found)] = others
        self.others += len(others)
        yield from (each for each, is_it in zip(found, is_wanted, strict=True) if is_it)


@dataclass(frozen=True)
class Link:
    """A link from one part to another: its kind, and the part's name, empty if it isn't within the
    archive.
    """

    kind: str
    part: str


def _find_kind(text: str) -> str:
    """The kind of a link: a word for those of ECMA-376, else as it is written."""
    namespace, _, kind = text.rpartition("/")
    return kind if namespace in _LINKS else text


def _find_target(folder: str, text: str) -> str:
    """The name of the part that a link of a part in a folder leads to. One that goes up after it went
    down, or stays where it is, leads to none: not every spreadsheet finds the part.
    """
    if _ROUNDABOUT.search(text):
        return text
    return posixpath.normpath(posixpath.join("/", folder, text)).lstrip("/")


class Archive:
    """The parts of a workbook's archive by their names."""

    def __init__(self, data: bytes) -> None:
        _check_archive(data)
        self.budget = Budget()
        with _map_library_errors():
            self.archive = zipfile.ZipFile(BytesIO(data))
            entries = self.archive.infolist()
        if sum(entry.file_size for entry in entries) > _MOST_UNPACKED:
            raise BadWorkbook(f"it is a workbook of more than {_MOST_UNPACKED:,} bytes, unpacked")
        self.entries: dict[str, zipfile.ZipInfo] = {}
        for entry in entries:
            # (names differ in more than case and the marks between folders)
            name = posixpath.normpath("/" + entry.filename.lower().replace("\\", "/")).lstrip("/")
            if name in self.entries:
                raise BadWorkbook(f"its archive has {quote(entry.filename)} twice")
            self.entries[name] = entry

    def read(self, name: str) -> bytes:
        """The bytes of a part."""
        entry = self.entries.get(name.lower())
        # (spreadsheets differ in whether another case, or what % begins, is the same name)
        if entry is None or entry.filename.lstrip("/") != name or "%" in name:
            raise BadWorkbook(f"{NO_WORKBOOK}: it has no part {quote(name)}")
        if entry.flag_bits & 1:
            raise BadWorkbook("its archive has a password; save the workbook without one")
        if entry.compress_type not in (zipfile.ZIP_STORED, zipfile.ZIP_DEFLATED):
            raise BadWorkbook(f"its archive packs {quote(name)} as no spreadsheet does")
        if entry.file_size > _MOST_OF_A_PART:
            most = f"{_MOST_OF_A_PART:,} bytes, unpacked"
            raise BadWorkbook(f"its part {quote(name)} has more than {most}")
        self.budget.unpack(entry.file_size)
        with _map_library_errors(), self.archive.open(entry) as file:
            return file.read(entry.file_size)

    def parse(self, name: str) -> XmlPart:
        """A part that is an XML text."""
        return XmlPart(self.read(name), self.budget)

    def links(self, name: str, *, is_needed: bool = True) -> dict[str, Link]:
        """What a part is linked to, by the links' names."""
        folder, file = posixpath.split(name)
        path = posixpath.join(folder, "_rels", f"{file}.rels")
        if not is_needed and path.lower() not in self.entries:
            return {}
        part = self.parse(path)
        links: dict[str, Link] = {}
        root = part.read()
        part.check(root)
        for element in root:
            link = element.get("Id", "")
            if link in links:
                raise BadWorkbook(f"its archive has the link {quote(link)} twice")
            is_outside = element.get("TargetMode") == "External"
            target = "" if is_outside else _find_target(folder, element.get("Target", ""))
            links[link] = Link(kind=_find_kind(element.get("Type", "")), part=target)
        return links


def _check_archive(data: bytes) -> None:
    """Raises BadWorkbook if a file isn't one archive from its beginning to its end."""
    if data.startswith(b"\xd0\xcf\x11\xe0"):
        raise BadWorkbook(_PASSWORD)
    if not data.startswith(b"PK\x03\x04"):
        raise BadWorkbook(f"{NO_WORKBOOK}: it doesn't begin as an archive does")
    if data.count(_DIRECTORY_ENTRY) > _MOST_ENTRIES:
        raise BadWorkbook(f"its archive has more than {_MOST_ENTRIES:,} files")
    end = data.rfind(_DIRECTORY_END)
    if end < 0 or end + _END.size > len(data):
        raise BadWorkbook(f"{NO_WORKBOOK}: its archive is cut off")
    size, offset, comment = _END.unpack_from(data, end)
    is_whole = offset + size == end and end + _END.size + comment == len(data)
    if not is_whole or data.count(_DIRECTORY_END) > 1:
        raise BadWorkbook(f"{NO_WORKBOOK}: its archive has parts that don't belong together")


def find_part(links: Mapping[str, Link], kind: str) -> str | None:
    """The one part of a kind that is linked, or None."""
    names = [link.part for link in links.values() if link.kind == kind]
    if len(names) > 1:
        raise BadWorkbook(f"{NO_WORKBOOK}: it has two parts {kind}")
    return names[0] if names else None
