"""What `wdp explain` adds to a refusal: the field or name, its text, and what was wanted, as the formats have it."""

import re

# so many bytes of a field are shown
SHOWN = 40
SHOWN_BYTE = r"(?:[ -&(-\[\]-~]|\\['\\]|\\x[0-9a-f]{2})"
VALUE = "'%s{0,%d}'(?:[.]{3})?" % (SHOWN_BYTE, SHOWN)
NUMBER = "(?:0|[1-9][0-9]*)"
FIELD = ", field [1-9][0-9]*: %s" % VALUE
FIRST = ", field 1: %s" % VALUE
QUANTITY = ", field (?:[2-9]|[1-9][0-9]+): %s" % VALUE
NAME = ", name [1-9][0-9]*: %s" % VALUE
DIGITS = " isn't 1 to 18 digits"
AMOUNTS = " isn't between 1 and 1000000000000"
COUNT = ": %s fields in place of %s" % (NUMBER, NUMBER)
NO_RECORD = ": there is no record"
NO_BIDDER = " is no bidder's name"
# a detail of each number of a fault, as a regular expression
RULES = {
    1: "",
    2: "(?:%s|: 1 fields, without a version|, field 1: %s isn't rules|, field 2: %s isn't a version, 1, 2 or 3)"
    % (NO_RECORD, VALUE, VALUE),
    3: COUNT,
    4: FIRST + " is no kind of record",
    5: FIELD + " isn't a letter and then letters or digits, at most 16",
    6: FIELD + DIGITS,
    7: FIELD + " isn't between %s and %s" % (NUMBER, NUMBER),
    8: "(?:, field 2: %s is the name of an earlier record of its kind|, field 3: %s is in that pool already)"
    % (VALUE, VALUE),
    9: ": more than (?:32 categories|256 bidders|16 pools)",
    10: "",
    11: "",
    13: "(?:, field 2: %s is the name of no earlier pool|, field 3: %s is the name of no earlier category)"
    % (VALUE, VALUE),
}
FORM = {
    1: "",
    2: "(?:%s|%s|, field (?:[2-9]|[1-9][0-9]+): %s in place of [A-Za-z][A-Za-z0-9]{0,15})"
    % (NO_RECORD, COUNT, VALUE),
    3: FIRST + NO_BIDDER,
    4: COUNT,
    5: FIRST + DIGITS,
    6: FIRST + AMOUNTS,
    7: FIRST + " isn't a multiple of " + NUMBER,
    8: QUANTITY + DIGITS,
    9: QUANTITY + " isn't between 0 and 10000",
    10: ": each quantity is 0",
    11: ": %s points, above the eligibility of %s" % (NUMBER, NUMBER),
    12: FIRST + " is below the reserve of " + NUMBER,
    13: "",
    14: ": more than 4000 bids",
}
GROUPS = {
    1: "",
    2: "",
    3: NAME + NO_BIDDER,
    4: NAME + " is in the line already",
    5: ": more than 1024 groups",
}
INPUT = {
    "bytes before the first part": ": the text begins with %s and has no %%rules before it" % VALUE,
    "wrong number of rules": ": (?:0|[2-9]|[1-9][0-9]+) rules in place of 1",
    "wrong number of groups": ": (?:[2-9]|[1-9][0-9]+) groups in place of 1 at most",
}
PARTS = {"rules": RULES, "form": FORM, "groups": GROUPS}
NUMBERED = re.compile(r"(rules|form|groups)(?: [0-9]+)?: ([0-9]+) ")


def is_line_of(line, refusal):
    """Whether `explain` may print this line for this refusal: the same words, then the details of its fault."""
    numbered = NUMBERED.match(refusal)
    of_input = INPUT.get(refusal.removeprefix("input: "), "")
    detail = PARTS[numbered[1]][int(numbered[2])] if numbered else of_input
    return bool(re.fullmatch(re.escape(refusal) + detail, line))


def quote(text):
    """A field as it is shown."""
    if isinstance(text, str):
        text = text.encode("latin-1")
    told = "".join(
        "\\" + chr(byte)
        if byte in b"'\\"
        else chr(byte)
        if 0x20 <= byte <= 0x7E
        else "\\x%02x" % byte
        for byte in text[:SHOWN]
    )
    return "'%s'" % told + "..." * (len(text) > SHOWN)


def of_field(number, text, wrong):
    return ", field %d: %s%s" % (number, quote(text), wrong)


def of_name(number, name, wrong):
    return ", name %d: %s%s" % (number, quote(name), wrong)
