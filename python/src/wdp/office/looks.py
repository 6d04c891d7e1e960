"""How the cells of a workbook look by their styles, and what conditions and tables add to that.

A look is known to show a cell's value if its format does, and nothing of its font, its alignment
and its colours may hide the value or repeat it.
"""
import colorsys
import re
from collections.abc import Iterator, Mapping, Sequence
from dataclasses import dataclass, field, replace
from typing import TypeVar
from xml.etree.ElementTree import Element

from wdp.office.archives import BadWorkbook, XmlPart
from wdp.office.faults import quote
from wdp.office.known import Names
from wdp.office.formats import BUILT_IN, GENERAL, MOST_SHOWN, OF_LANGUAGE, NumberFormat

Colour = tuple[int, int, int]
_Value = TypeVar("_Value")

OFF = ("0", "false")
# as a spreadsheet writes it: programs write 17 digits, and zeros before or after them
NUMBER = re.compile(r"[+-]?(?=\.?[0-9])[0-9]{0,30}(?:\.[0-9]{0,30})?(?:[eE][+-]?[0-9]{1,4})?")
INDEX = re.compile("[0-9]{1,9}")
_RGB = re.compile("[0-9A-Fa-f]{2}([0-9A-Fa-f]{6})")
_BLACK: Colour = (0, 0, 0)
_WHITE: Colour = (255, 255, 255)
_NEAREST = 48  # of 255: how far a channel of a colour has to be from that of what is behind it
_SMALLEST_FONT = 6  # points
_MOST_FONTS = 1_024  # and fills: as many fonts as a spreadsheet has at most
_LARGEST_FONT = 72
_MOST_INDENT = 15
_USUAL_SIZE = 11.0
_FORMAT = "its format {} isn't known to show it as it is; format it as 0 or as General"
# the colours that files name by their numbers from 0; the last two are those of the system
_INDEXED = """
000000 FFFFFF FF0000 00FF00 0000FF FFFF00 FF00FF 00FFFF 000000 FFFFFF FF0000 00FF00 0000FF FFFF00
FF00FF 00FFFF 800000 008000 000080 808000 800080 008080 C0C0C0 808080 9999FF 993366 FFFFCC CCFFFF
660066 FF8080 0066CC CCCCFF 000080 FF00FF FFFF00 00FFFF 800080 800000 008080 0000FF 00CCFF CCFFFF
CCFFCC FFFF99 99CCFF FF99CC CC99FF FFCC99 3366FF 33CCCC 99CC00 FFCC00 FF9900 FF6600 666699 969696
003366 339966 003300 333300 993300 993366 333399 333333 000000 FFFFFF
""".split()
# the colours of a theme in the order of their numbers, with those that are usual
_THEME = {
    "lt1": "FFFFFF",
    "dk1": "000000",
    "lt2": "EEECE1",
    "dk2": "1F497D",
    "accent1": "4F81BD",
    "accent2": "C0504D",
    "accent3": "9BBB59",
    "accent4": "8064A2",
    "accent5": "4BACC6",
    "accent6": "F79646",
    "hlink": "0000FF",
    "folHlink": "800080",
}
_OF_SYSTEM = {"window": "FFFFFF", "windowText": "000000"}
_ALIGNMENTS = (
    "general",
    "left",
    "center",
    "right",
    "justify",
    "distributed",
    "centerContinuous",
    "start",
    "end",
)
# fonts that have signs in place of digits, by how their names begin
_SIGN_FONTS = (
    "wingdings",
    "webdings",
    "symbol",
    "marlett",
    "mt extra",
    "zapf",
    "dingbats",
    "opensymbol",
    "ms outlook",
    "ms reference special",
    "bookshelf symbol",
    "monotype sorts",
    "standard symbols",
    "code 39",
    "free 3 of 9",
    "libre barcode",
    "wp ",
)
_SYMBOL_CHARACTERS = "2"  # the number of the characters of such a font
# what a style has beside its named one, and how it says so
_APPLIED = {"numFmtId": "applyNumberFormat", "fontId": "applyFont", "fillId": "applyFill"}
_MARKS = {"b": "bold", "i": "italic", "u": "underlined"}
_CHANGES = {"numFmt": "format", "color": "colour", "sz": "size", "strike": "struck through"}
_OF_CONDITIONS = ("font", "fill", "border", "protection")  # what a condition may change
_FAINT_PATTERNS = ("gray125", "gray0625")


def is_on(value: str | None) -> bool:
    """Whether an attribute is there and true."""
    return value is not None and value not in OFF


def _parse_colour(text: str) -> Colour:
    return int(text[:2], 16), int(text[2:4], 16), int(text[4:], 16)


def format_colour(colour: Colour) -> str:
    """A colour in hexadecimal digits."""
    return "".join(f"{channel:02X}" for channel in colour)


def is_near(one: Colour, other: Colour) -> bool:
    """Whether something of one colour can't be told from something of another one behind it.

    >>> is_near((255, 255, 255), (207, 255, 230)), is_near((255, 255, 255), (206, 255, 255))
    (True, False)
    """
    (red, green, blue), (other_red, other_green, other_blue) = one, other
    is_so = abs(red - other_red) <= _NEAREST and abs(green - other_green) <= _NEAREST
    return is_so and abs(blue - other_blue) <= _NEAREST


def mix(one: Colour, other: Colour) -> Iterator[Colour]:
    """The colours from one to another one."""
    for step in range(33):
        red, green, blue = (round(a + (b - a) * step / 32) for a, b in zip(one, other, strict=True))
        yield red, green, blue


@dataclass(frozen=True, eq=False)
class Look:
    """How a style shows a cell: `hides` says why its value isn't known to be seen, `turns` why a
    number isn't. `traits` are what differs from a plain cell and hides nothing.
    """

    number_format: NumberFormat
    hides: str = ""
    turns: str = ""
    font: Colour = _BLACK
    size: float = _USUAL_SIZE
    traits: frozenset[str] = frozenset()
    fills: Sequence[Colour] = (_WHITE,)

    @property
    def shown(self) -> range:
        """The whole numbers that it is known to show as they are."""
        is_other = self.hides or self.turns or self.number_format.is_date
        return range(0) if is_other else self.number_format.shown

    def find_reason(self, number: float | None) -> str:
        """Why a number, or a text, isn't known to be shown as it is; nothing if it is."""
        if self.hides:
            return self.hides
        if number is None:
            is_shown = self.number_format.shows_texts
            return "" if is_shown else _FORMAT.format(quote(self.number_format.code))
        if self.turns:
            return self.turns
        if number >= MOST_SHOWN:
            return "it has more than the 15 digits that spreadsheets show"
        is_shown = number < 0 or self.number_format.shows(number)
        return "" if is_shown else _FORMAT.format(quote(self.number_format.code))


@dataclass(frozen=True)
class Font:
    """A font: `hides` says why what has it isn't known to be seen."""

    hides: str = ""
    colour: Colour = _BLACK
    size: float = _USUAL_SIZE
    traits: frozenset[str] = frozenset()

    def find_reason(self, fills: Sequence[Colour]) -> str:
        """Why what has this font isn't known to be seen on these colours; nothing if it is."""
        if self.hides:
            return self.hides
        for colour in fills:
            if is_near(self.colour, colour):
                shown = f"{format_colour(self.colour)}, can't be told from its fill"
                return f"the colour of its font, {shown}, {format_colour(colour)}"
        return ""


@dataclass(frozen=True)
class Condition:
    """What a condition or a table may give to cells: `hides` says why their values aren't known to
    be seen then, `colours` are behind them.
    """

    hides: str = ""
    colours: Sequence[Colour] = ()


@dataclass
class Palette:
    """The colours that a workbook names, and the fonts that its theme does, by their schemes."""

    theme: list[Colour | None] = field(default_factory=list)
    fonts: dict[str, list[str]] = field(default_factory=dict)
    indexed: list[Colour] = field(default_factory=lambda: [*map(_parse_colour, _INDEXED)])

    def take_theme(self, root: Element, part: XmlPart) -> None:
        """Takes the colours and the fonts of a theme; a colour that isn't understood isn't known."""
        schemes: list[Element] = list(root.iter())
        for each in schemes:
            name = part.name(each.tag)
            if name in ("majorFont", "minorFont"):
                latin = [font for font in each if part.name(font.tag) == "latin"]
                names = [font.get("typeface", "") for font in latin]
                self.fonts.setdefault(name.removesuffix("Font"), []).extend(names)
        schemes = [each for each in schemes if part.name(each.tag) == "clrScheme"]
        found: dict[str, Colour | None] = {}
        for entry in (entry for scheme in schemes for entry in scheme):
            values = [_read_theme_colour(each, part) for each in entry]
            name = part.name(entry.tag)
            found[name] = values[0] if len(values) == 1 and name not in found else None
        self.theme = [found.get(name) for name in _THEME]

    def take_indexed(self, colours: Sequence[Element], part: XmlPart) -> None:
        """Takes the colours that a workbook has in place of the usual ones."""
        for number, element in enumerate(colours):
            match = _RGB.fullmatch(element.get("rgb", ""))
            if not match or number >= 64:
                raise BadWorkbook("the colours of its styles aren't understood")
            self.indexed[number] = _parse_colour(match[1])

    def read(self, element: Element | None, automatic: Colour) -> Colour | None:
        """The colour that an element says; None if it isn't known."""
        if element is None or is_on(element.get("auto")):
            return automatic
        kinds = [kind for kind in ("rgb", "theme", "indexed") if element.get(kind) is not None]
        if len(kinds) != 1:
            return None
        value = element.get(kinds[0], "")
        colour: Colour | None = None
        if kinds == ["rgb"]:
            match = _RGB.fullmatch(value)
            colour = _parse_colour(match[1]) if match else None
        elif INDEX.fullmatch(value):
            colours: Sequence[Colour | None] = self.indexed
            if kinds == ["theme"]:
                colours = self.theme
            colour = colours[int(value)] if int(value) < len(colours) else None
        return None if colour is None else _tint(colour, element.get("tint", "0"))


def _read_theme_colour(element: Element, part: XmlPart) -> Colour | None:
    """A colour of a theme, which is one of the system or has its own digits."""
    kind = part.name(element.tag)
    if len(element):
        return None
    if kind == "sysClr":
        text = _OF_SYSTEM.get(element.get("val", ""), "")
        is_usual = text and element.get("lastClr", text).upper() == text
        return _parse_colour(text) if is_usual else None
    text = element.get("val", "")
    return _parse_colour(text) if kind == "srgbClr" and _RGB.fullmatch("00" + text) else None


def _tint(colour: Colour, text: str) -> Colour | None:
    """A colour that is made darker or lighter, by -1 to 1."""
    if not NUMBER.fullmatch(text) or not -1 <= float(text) <= 1:
        return None
    tint = float(text)
    if not tint:
        return colour
    hue, light, saturation = colorsys.rgb_to_hls(*(channel / 255 for channel in colour))
    light = light * (1 + tint) if tint < 0 else light * (1 - tint) + tint
    red, green, blue = (
        round(255 * channel) for channel in colorsys.hls_to_rgb(hue, light, saturation)
    )
    return red, green, blue


class Styles:
    """The looks of a workbook's cells by the numbers of their styles, each made once, and what its
    conditions give to cells.
    """

    def __init__(self, part: XmlPart | None, palette: Palette) -> None:
        self.palette = palette
        self.conditions: list[Condition] = []
        lists: Mapping[str, list[Element]] = {}
        if part:
            root = part.read()
            part.check(root)
            lists = {part.name(each.tag): list(each) for each in root}
            if max(len(lists.get("fonts", [])), len(lists.get("fills", []))) > _MOST_FONTS:
                raise BadWorkbook(f"it has more than {_MOST_FONTS:,} fonts or fills")
            for colours in lists.get("colors", []):
                if part.name(colours.tag) == "indexedColors":
                    palette.take_indexed(list(colours), part)
        self.named = lists.get("cellStyleXfs", [])
        self.formats = _make_formats(lists.get("numFmts", []))
        self.fonts = [Font()]
        self.fills: list[list[Colour] | None] = [[_WHITE]]
        # whether a line goes across the cells that have a border
        self.crosses = [False]
        self.table_styles: set[str] = set()
        self.of_cells = [Look(NumberFormat(GENERAL))]
        if part:
            fonts = [self.read_font(each, part) for each in lists.get("fonts", [])]
            self.fonts = fonts or self.fonts
            fills = [self._read_fill(each, part) for each in lists.get("fills", [])]
            self.fills = fills or self.fills
            borders = [_is_crossed(each, part) for each in lists.get("borders", [])]
            self.crosses = borders or self.crosses
            looks = [self._make_look(each, part) for each in lists.get("cellXfs", [])]
            self.of_cells = looks or self.of_cells
            self.conditions = [self.read_condition(each, part) for each in lists.get("dxfs", [])]
            styles = (each.get("name", "") for each in lists.get("tableStyles", []))
            self.table_styles = {name.lower() for name in styles}
        usual = self.named[0].get("fontId", "0") if self.named else "0"
        # that of the digits by which columns are measured
        self.usual_size = (_pick(self.fonts, usual) or self.fonts[0]).size

    def find(self, style: str) -> Look | None:
        """The look of a style of cells, by its number; None if there is no such style."""
        if not INDEX.fullmatch(style) or int(style) >= len(self.of_cells):
            return None
        return self.of_cells[int(style)]

    def find_condition(self, style: str) -> Condition:
        """What the style of a condition gives to cells."""
        if not INDEX.fullmatch(style) or int(style) >= len(self.conditions):
            return Condition(f"a condition gives it the style {quote(style)}, which isn't there")
        return self.conditions[int(style)]

    def read_font(self, font: Element, part: Names) -> Font:
        """A font of cells, or of a piece of a text."""
        values = {part.name(each.tag): each for each in font}
        texts = {name: each.get("val", "") for name, each in values.items()}
        hides = ""
        if "strike" in values and is_on(texts["strike"] or "1"):
            hides = "it is struck through"
        if texts.get("vertAlign", "baseline") != "baseline":
            hides = "it is written above or below its line"
        size = texts.get("sz", str(_USUAL_SIZE))
        points = float(size) if NUMBER.fullmatch(size) else 0.0
        if not _SMALLEST_FONT <= points <= _LARGEST_FONT:
            hides = f"its font has {quote(size)} points, not {_SMALLEST_FONT} to {_LARGEST_FONT}"
            points = _USUAL_SIZE
        name = texts.get("name", texts.get("rFont", ""))
        # (spreadsheets differ in which of the two they show)
        names = [name, *self.palette.fonts.get(texts.get("scheme", ""), ())]
        odd = next(filter(_has_signs, names), None)
        if texts.get("charset") == _SYMBOL_CHARACTERS or odd is not None:
            hides = f"its font {quote(odd or name)} may have other signs in place of digits"
        colour = self.palette.read(values.get("color"), automatic=_BLACK)
        if colour is None:
            hides = hides or "the colour of its font isn't known"
        traits = set()
        for mark, word in _MARKS.items():
            if mark in values and texts[mark] not in (*OFF, "none"):
                traits.add(word)
        if colour and colour != _BLACK:
            traits.add(f"colour {format_colour(colour)}")
        return Font(hides, colour or _BLACK, size=points, traits=frozenset(traits))

    def _read_fill(
        self, fill: Element, part: Names, *, of_condition: bool = False
    ) -> list[Colour] | None:
        """The colours that are behind a cell; None if one isn't known."""
        if not len(fill):
            return [_WHITE]
        kind = part.name(fill[0].tag)
        if kind == "gradientFill":
            stops = [self.palette.read(_find(stop, part, "color"), _WHITE) for stop in fill[0]]
            known = [stop for stop in stops if stop]
            if len(known) < len(stops) or not known:
                return None
            return [each for pair in zip(known, known[1:] or known) for each in mix(*pair)]
        pattern = fill[0].get("patternType", "solid" if of_condition else "none")
        if pattern == "none":
            return [_WHITE]
        front = _find(fill[0], part, "fgColor")
        back = _find(fill[0], part, "bgColor")
        if pattern == "solid":
            # (the colour of a condition's solid fill is that of what is behind, but for programs)
            elements = [front, back] if of_condition else [front]
            colours = [self.palette.read(each, _BLACK) for each in elements if each is not None]
            known = [colour for colour in colours if colour]
            return known if known and len(known) == len(colours) else None
        colours = [self.palette.read(back, _WHITE)]
        if pattern not in _FAINT_PATTERNS:
            colours.append(self.palette.read(front, _BLACK))
        known = [colour for colour in colours if colour]
        return known if len(known) == len(colours) else None

    def _make_look(self, style: Element, part: Names) -> Look:
        number = style.get("numFmtId", "0")
        number_format = self.formats.get(number)
        if number_format is None:
            why = f"its format has the number {quote(number)}, which isn't known"
            return Look(NumberFormat(GENERAL), hides=why)
        font = _pick(self.fonts, style.get("fontId", "0"))
        fill = _pick(self.fills, style.get("fillId", "0"))
        if font is None:
            return Look(number_format, hides="its font isn't in the workbook")
        traits = set(font.traits)
        alignment = _find(style, part, "alignment")
        hides = font.hides or self._judge_named_style(style) or self._judge_border(style)
        if not fill:
            hides = hides or "the colour of its fill isn't known"
        hides = hides or font.find_reason(fill or ()) or _judge_repeating(alignment)
        if fill and fill != [_WHITE]:
            traits.add(f"fill {format_colour(fill[0])}")
        look = Look(number_format, hides, font=font.colour, size=font.size, fills=fill or ())
        return replace(look, turns=_judge_alignment(alignment), traits=frozenset(traits))

    def _judge_border(self, style: Element) -> str:
        """Why it isn't known that nothing goes across the cells of a style; nothing if it is."""
        named = _pick(self.named, style.get("xfId", "0"))
        at = [each.get("borderId", "0") for each in (style, named) if each is not None]
        lines = [_pick(self.crosses, each) for each in at]
        if None in lines:
            return "its border isn't in the workbook"
        return "a line goes across it" if any(lines) else ""

    def _judge_named_style(self, style: Element) -> str:
        """Why it isn't known if a style, or the named one that it is of, is shown; nothing if it
        is.
        """
        at = style.get("xfId", "0")
        if not self.named:
            return ""
        named = _pick(self.named, at)
        if named is None:
            return f"its named style {quote(at)} isn't there"
        for kind, name in _APPLIED.items():
            if style.get(name) in OFF and style.get(kind, "0") != named.get(kind, "0"):
                return f"its style says by {name} that it hasn't what it has"
        return ""

    def read_condition(self, element: Element, part: Names) -> Condition:
        """What a style gives to cells on a condition."""
        names = [part.name(each.tag) for each in element]
        odd = next((name for name in names if name not in _OF_CONDITIONS), "")
        if odd or len(set(names)) < len(names):
            return Condition(f"a condition may change its {_CHANGES.get(odd, odd or 'look')}")
        font = _find(element, part, "font")
        if font is not None:
            odd = next(
                (part.name(each.tag) for each in font if part.name(each.tag) not in _MARKS), ""
            )
            if odd:
                return Condition(f"a condition may change its font: {_CHANGES.get(odd, odd)}")
        if any(_is_crossed(each, part) for each in element):
            return Condition("a condition may put a line across it")
        fill = _find(element, part, "fill")
        colours = [] if fill is None else self._read_fill(fill, part, of_condition=True)
        if colours is None:
            return Condition("a condition may give it a fill that isn't known")
        return Condition(colours=colours)


def _find(element: Element, part: Names, name: str) -> Element | None:
    """The element of this name in another one."""
    return next((each for each in element if part.name(each.tag) == name), None)


def _pick(values: Sequence[_Value], index: str) -> _Value | None:
    """The value of a list at a place that a file says, if it has one there."""
    return values[int(index)] if INDEX.fullmatch(index) and int(index) < len(values) else None


def _make_formats(elements: Sequence[Element]) -> dict[str, NumberFormat]:
    """The formats by their numbers: those of a workbook, and those that each one has."""
    codes: dict[str, str] = {}
    for each in elements:
        number = each.get("numFmtId", "")
        if not INDEX.fullmatch(number):
            raise BadWorkbook(f"a format of numbers has the number {quote(number)}")
        number = str(int(number))
        if number in codes:
            raise BadWorkbook(f"its format of numbers {quote(number)} is there twice")
        codes[number] = each.get("formatCode", "")
    formats = {number: NumberFormat(code) for number, code in (OF_LANGUAGE | codes).items()}
    for number, code in BUILT_IN.items():
        # (programs differ in which of the two they show)
        usual = NumberFormat(code)
        if number not in formats or not usual.shows(1):
            formats[number] = usual
    for number, code in OF_LANGUAGE.items():
        if NumberFormat(code).is_date:
            formats[number] = NumberFormat(code)
    return formats


def _has_signs(name: str) -> bool:
    """Whether a font may have other signs in place of digits. Its name may be a list of names."""
    names = re.split("[;,]", name)
    return len(name) > 64 or any(each.strip(" @").lower().startswith(_SIGN_FONTS) for each in names)


def _is_crossed(border: Element, part: Names) -> bool:
    """Whether a border has a line across the cell."""
    is_there = is_on(border.get("diagonalUp")) or is_on(border.get("diagonalDown"))
    diagonal = _find(border, part, "diagonal")
    return is_there and diagonal is not None and diagonal.get("style", "none") != "none"


def _judge_repeating(alignment: Element | None) -> str:
    """Why a value isn't known to be shown once; nothing if it is."""
    horizontal = "general" if alignment is None else alignment.get("horizontal", "general")
    return "" if horizontal in _ALIGNMENTS else f"its alignment {quote(horizontal)} may repeat it"


def _judge_alignment(alignment: Element | None) -> str:
    """Why a number isn't known to be shown upright and at its size; nothing if it is."""
    if alignment is None:
        return ""
    if alignment.get("textRotation", "0") != "0":
        return "it is turned"
    if is_on(alignment.get("shrinkToFit")):
        return "it is made smaller to fit its cell"
    indent = alignment.get("indent", "0")
    if not INDEX.fullmatch(indent) or int(indent) > _MOST_INDENT:
        return f"its indent is {quote(indent)}"
    return ""
