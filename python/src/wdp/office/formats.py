"""Formats of numbers in workbooks: those that are known to show a cell's number as it is, and those
that show it as a date. Of every other format nothing is known.
"""
import re
from functools import cached_property

GENERAL = "General"
_LONGEST = 255  # characters of a format
# the formats that workbooks name by their numbers alone; most of the dates are those of a language
BUILT_IN = {
    "0": GENERAL,
    "1": "0",
    "2": "0.00",
    "3": "#,##0",
    "4": "#,##0.00",
    "9": "0%",
    "10": "0.00%",
    "11": "0.00E+00",
    "12": "# ?/?",
    "13": "# ??/??",
    "37": "#,##0;-#,##0",
    "38": "#,##0;[Red]-#,##0",
    "39": "#,##0.00;-#,##0.00",
    "40": "#,##0.00;[Red]-#,##0.00",
    "48": "##0.0E+0",
    "49": "@",
}
_CURRENCIES = {"5": "$#,##0", "6": "$#,##0", "7": "$#,##0.00", "8": "$#,##0.00"}
_CURRENCIES |= {"41": "#,##0", "42": "$#,##0", "43": "#,##0.00", "44": "$#,##0.00"}
_DATE_NUMBERS = (*range(14, 23), *range(27, 37), *range(45, 48), *range(50, 59))
# which of them a workbook may say itself, since they differ by language
OF_LANGUAGE = _CURRENCIES | {str(number): "yyyy-mm-dd" for number in _DATE_NUMBERS}
_MOST_IN_GENERAL = 10**11  # from which on General shows the first digits alone
_MOST_BEFORE_FRACTION = 10**9  # from which on not every spreadsheet shows one with a fraction
MOST_SHOWN = 10**15  # from which on any format shows the first 15 digits alone

# languages that write numbers with the digits 0 to 9, as words and as the numbers of Windows
_LANGUAGES = "bg|cs|cy|da|de|el|en|es|et|fi|fr|ga|he|hr|hu|is|it|ja|ko|lt|lv|mt|nb|nl|nn|no|pl|pt"
_LANGUAGES += "|ro|ru|sk|sl|sr|sv|tr|uk|zh"
_PRIMARY = "02|04|05|06|07|08|09|0A|0B|0C|0D|0E|0F|10|11|12|13|14|15|16|18|19|1A|1B|1D|1F"
_PRIMARY += "|22|24|25|26|27|3A|3C|52"
_CODES = rf"(?i:[0-4]?[0-9A-F]?(?:{_PRIMARY}))"
_LANGUAGE = rf"-(?:[12]|x-euro[12]?|(?:{_LANGUAGES})(?:-[A-Z]{{2}})?|{_CODES})"
_SIGNS = "[$£€¥₣₤₦₩₪₫₱₴₹₺₽]|[A-Z]{1,3}[$£]|kr\\.?|zł|Kč|Ft|[Ff]r\\.?|lei|лв\\.?|R"
_ISO = "AUD|BGN|BRL|CAD|CHF|CNY|CZK|DKK|EUR|GBP|HKD|HUF|ILS|INR|ISK|JPY|KRW|MXN|NOK|NZD|PLN|RON|RUB"
_ISO += "|SEK|SGD|TRY|UAH|USD|ZAR"
_WORDS = "pounds?|euros?|dollars?|sterling"
_CURRENCY = f"(?:{_SIGNS}|{_ISO}|{_WORDS})"
_BLANK = "[ \u00a0\u202f]"
# what may come first: a language alone, which some spreadsheets show as it is written if something
# is before it
_FIRST = rf"(?:\[\${_LANGUAGE}\])?"
# what may be before and after a number: a currency, blanks, room for a character, and a fill of
# blanks
_BESIDE = rf"""(?:
    "{_BLANK}*{_CURRENCY}?{_BLANK}*" | \[\${_BLANK}*{_CURRENCY}{_BLANK}*(?:{_LANGUAGE})?\]
    | \\?[$£€¥] | \\?{_BLANK} | _. | \*{_BLANK}
)*"""
# (with three places for a fraction it would look as if it had thousands)
_DIGITS = r"""(?:
    General | (?: [#?0]+ | (?:[#?]+,)+[#?]*0{0,3} ) (?:\.(?![#?0]{3}(?![#?0]))[#?0]*)?
)"""
_NUMBER = re.compile(f"{_FIRST}{_BESIDE}{_DIGITS}{_BESIDE}", re.VERBOSE | re.DOTALL)
# some spreadsheets show 1/2 for 12 if something is before it
_FRACTION = re.compile(r"# \?{1,3}/\?{1,3}")
# how accountants write 0
_ZERO = re.compile(rf'{_FIRST}{_BESIDE}(?:"[-–—]?"|\\?[-–—])?\?*{_BESIDE}', re.VERBOSE | re.DOTALL)
_TEXT = re.compile(f"{_FIRST}{_BESIDE}(?:@|General){_BESIDE}", re.VERBOSE | re.DOTALL)
# what is shown as it is written there, what is in brackets, what leaves room or fills it
_PIECE = re.compile(r'"[^"]*"|\\.|[_*].|\[(?P<bracket>[^\]]*)\]|(?P<sign>.)', re.DOTALL)
_ELAPSED = re.compile("h+|m+|s+", re.IGNORECASE)
_OF_DATES = re.compile("[dmyhs]", re.IGNORECASE)


def _shows_digits(section: str) -> bool:
    """Whether a section of a format shows a number by its digits."""
    return bool(_NUMBER.fullmatch(section) or _FRACTION.fullmatch(section))


class NumberFormat:
    """A format by its code.

    Its first section is that of numbers above 0, its third one, if it has one, that of 0, and its
    fourth one that of texts.

    >>> codes = ("General", "#,##0", "0.00", "[$£-809]#,##0", '#,##0" EUR"', "0;-0;;@", "# ?/?")
    >>> [NumberFormat(code).shows(300) for code in codes]
    [True, True, True, True, True, True, True]
    >>> codes = ("#,##0,", "0%", '0"k"', "0*0", "-0", "[$1]0", "0.00E+00", ";;;", "[White]0", "0;0;5")
    >>> [NumberFormat(code).shows(300) and NumberFormat(code).shows(0) for code in codes]
    [False, False, False, False, False, False, False, False, False, False]
    """

    def __init__(self, code: str) -> None:
        self.code = code

    def shows(self, number: float) -> bool:
        """Whether it is known to show a number, which isn't below 0, as it is."""
        return number < self.shown.stop if number else 0 in self.shown

    @cached_property
    def shown(self) -> range:
        """The whole numbers that it is known to show as they are."""
        if not self._shows_numbers:
            return range(0)
        most = MOST_SHOWN
        if _FRACTION.fullmatch(self._sections[0]):
            most = _MOST_BEFORE_FRACTION
        elif GENERAL in self.code or "@" in self.code:
            most = _MOST_IN_GENERAL
        return range(0 if self._shows_zero else 1, most)

    @cached_property
    def shows_texts(self) -> bool:
        """Whether it is known to show a text as it is."""
        if len(self._sections) > 3:
            return len(self._sections) == 4 and bool(_TEXT.fullmatch(self._sections[3]))
        return "@" not in self.code or self.code == "@"

    @cached_property
    def is_date(self) -> bool:
        """Whether it shows a number as a date or a time."""
        pieces = list(_PIECE.finditer(self.code[:_LONGEST]))
        if any(_ELAPSED.fullmatch(piece["bracket"] or "") for piece in pieces):
            return True
        signs = "".join(piece["sign"] or "" for piece in pieces)
        return bool(_OF_DATES.search(signs.replace(GENERAL, "")))

    @cached_property
    def _sections(self) -> list[str]:
        sections = [""]
        for piece in _PIECE.finditer(self.code):
            if piece["sign"] == ";":
                sections.append("")
            else:
                sections[-1] += piece[0]
        return sections

    @cached_property
    def _shows_numbers(self) -> bool:
        if self.code in (GENERAL, "@"):
            return True
        is_short = len(self.code) <= _LONGEST and len(self._sections) <= 4
        return is_short and _shows_digits(self._sections[0])

    @cached_property
    def _shows_zero(self) -> bool:
        if len(self._sections) < 3:
            return self._shows_numbers
        section = self._sections[2]
        is_shown = _shows_digits(section) or bool(_ZERO.fullmatch(section))
        return self._shows_numbers and is_shown
