"""Auctions into which faults are planted, and the lines of `wdp explain` that report them, worked out from what was planted alone."""

from trials.explain_details import of_field, of_name

# so many faults are told, and how many more there are
MOST_LINES = 10_000

# Records of rules, each with a faulty one in its place, what is told of it, and what stands behind its record. No other record
# rests on those that have one.
RULES = [
    tuple(cell.strip() for cell in line.split("|"))
    if "|" in line
    else (line.strip(), None, None, None)
    for line in """\
rules,3,5,,,            | rules,3,0,,,            | 7 NumberRange | , field 3: '0' isn't between 1 and 1000000000000
category,North,40,10,3,0
category,East,40,20,2,7
category,South,40,30,1,0
category,West,40,40,1,0
pool,Low,90,,,
pool,High,90,,,         | pool,Low,90,,,          | 8 NameRepeated| , field 2: 'Low' is the name of an earlier record of its kind
member,Low,North,1,,
member,Low,East,2,,     | member,Low,East,10001,, | 7 NumberRange | , field 4: '10001' isn't between 1 and 10000
member,Low,South,3,,    | member,Lower,South,3,,  | 13 NameUnknown| , field 2: 'Lower' is the name of no earlier pool
member,Low,West,4,,     | member,Low,North,4,,    | 8 NameRepeated| , field 3: 'North' is in that pool already
bidder,Alpha,100,2,,
bidder,Beta,100,1,,     | bidder,Alpha,100,1,,    | 8 NameRepeated| , field 2: 'Alpha' is the name of an earlier record of its kind
bidder,Gamma,100,1,,    | bidder,Gamma,100,9,,    | 7 NumberRange | , field 4: '9' isn't between 1 and 8
bidder,Delta,100,1,,    | bidder,Delta,,1,,       | 6 NumberText  | , field 3: '' isn't 1 to 18 digits
bidder,Omega,100,1,,    | bider,Omega,100,1,,     | 4 Kind        | , field 1: 'bider' is no kind of record
bidder,Sigma,100,1,,    | bidder,4th,x,9,,        | 5 NameText    | , field 2: '4th' isn't a letter and then letters or digits, at most 16
bidder,Kappa,100,1,,    | bidder,Kappa,100,1,     | 3 FieldCount  | : 5 fields in place of 6
""".splitlines()
]
CATEGORIES = ["North", "East", "South", "West"]
BIDDERS = ["Alpha", "Beta", "Gamma", "Delta", "Omega", "Sigma"]

# Fields that are put into a bid, by their numbers, where None leaves one out and 6 adds one; and what is told then, with its
# field. With EARLIER the package is that of an earlier bid.
EARLIER = "earlier"
TEXT = "8 QuantityText"
NO_LOTS = {2: "0", 3: "0", 4: "0", 5: "0"}
BID_PLANTS = [
    ({1: "x"}, [("5 AmountText", 1)]),
    ({1: ""}, [("5 AmountText", 1)]),
    ({1: " 20000"}, [("5 AmountText", 1)]),
    ({1: "1" + "0" * 18}, [("5 AmountText", 1)]),
    ({1: "0"}, [("6 AmountRange", 1)]),
    ({1: "1000000000005"}, [("6 AmountRange", 1)]),
    ({1: "20001"}, [("7 AmountStep", 1)]),
    ({2: "one"}, [("8 QuantityText", 2)]),
    ({5: "-1"}, [("8 QuantityText", 5)]),
    ({3: "10001"}, [("9 QuantityRange", 3)]),
    ({2: "10001", 4: "", 5: "999999"}, [(TEXT, 4), ("9 QuantityRange", 2), ("9 QuantityRange", 5)]),
    ({1: "3", 2: "", 5: "1.5"}, [("7 AmountStep", 1), (TEXT, 2), (TEXT, 5)]),
    (
        {1: "0", 2: "a", 3: "b", 4: "c", 5: "d"},
        [("6 AmountRange", 1), *((TEXT, n) for n in (2, 3, 4, 5))],
    ),
    (NO_LOTS, [("10 EmptyPackage", None)]),
    ({**NO_LOTS, 1: "20002"}, [("7 AmountStep", 1), ("10 EmptyPackage", None)]),
    ({2: "34"}, [("11 OverEligibility", None)]),
    ({1: "y", 2: "34"}, [("5 AmountText", 1), ("11 OverEligibility", None)]),
    ({1: "5"}, [("12 BelowReserve", 1)]),
    ({1: "5", 2: "34"}, [("11 OverEligibility", None), ("12 BelowReserve", 1)]),
    ({5: None}, [("4 FieldCount", None)]),
    ({1: "x", 2: "x", 6: "0"}, [("4 FieldCount", None)]),
    ({}, [("13 RepeatedPackage", EARLIER)]),
    ({1: "20003"}, [("7 AmountStep", 1), ("13 RepeatedPackage", EARLIER)]),
    ({1: "5"}, [("12 BelowReserve", 1), ("13 RepeatedPackage", EARLIER)]),
]
# lines of groups, and what is told of them, with the number of the name
GROUP_PLANTS = [
    ("", [("2 EmptyLine", None)]),
    ("Nobody", [("3 UnknownBidder", 1)]),
    ("alpha", [("3 UnknownBidder", 1)]),
    ("Alpha+", [("3 UnknownBidder", 2)]),
    ("-+Alpha", [("3 UnknownBidder", 1)]),
    ("Alpha+Alpha", [("4 RepeatedBidder", 2)]),
    ("Nobody+Nobody", [("3 UnknownBidder", 1), ("3 UnknownBidder", 2)]),
    ("Beta++Gamma+Beta+Beta", [("3 UnknownBidder", 2), *(("4 RepeatedBidder", n) for n in (4, 5))]),
]
# what is wrong with a field or a name, by its fault
WRONG = {
    "5 AmountText": " isn't 1 to 18 digits",
    "6 AmountRange": " isn't between 1 and 1000000000000",
    "7 AmountStep": " isn't a multiple of 5",
    "8 QuantityText": " isn't 1 to 18 digits",
    "9 QuantityRange": " isn't between 0 and 10000",
    "3 UnknownBidder": " is no bidder's name",
    "4 RepeatedBidder": " is in the line already",
}
# points and reserves of the lots, and the eligibility of each bidder
POINTS = (3, 2, 1, 1)
RESERVES = (10, 20, 30, 40)
ELIGIBILITY = 100
GOOD_GROUPS = ["-", "Alpha", "Beta+Gamma", "Sigma+Alpha+Omega"]
GROUP_LINES = 120
# the place of groups behind the forms, and the numbers of the forms whose columns, or whose bidder, may be others than those of the rules
BEHIND = len(BIDDERS) + 1
OTHER_COLUMNS = 2
OTHER_BIDDER = 4


def bid(number):
    """A bid of a package that no other number has, whatever its first quantity is."""
    fields = (20_000 + 5 * number, number % 6, number >> 8, number >> 4 & 15, number & 15)
    return list(map(str, fields))


def weighed(fields, weights):
    """What the quantities of a record come to, each times its weight."""
    return sum(int(quantity) * weight for quantity, weight in zip(fields[1:], weights))


class Planted:
    """An auction with faults at places that are drawn, and what is to be told of each place: the faults and their fields."""

    def __init__(self, draw, bids, has_other_headers=False):
        self.draw = draw
        self.bids = bids
        self.told = {}
        self.forms = {
            number: [[name, *CATEGORIES], *map(bid, range(1, bids + 1))]
            for number, name in enumerate(BIDDERS, 1)
        }
        self.groups = draw.choices(GOOD_GROUPS, k=GROUP_LINES)
        self.has_other_headers = has_other_headers
        if has_other_headers:
            self.forms[OTHER_COLUMNS][0] = ["Nobody", *reversed(CATEGORIES)]
            self.forms[OTHER_BIDDER][0][0] = "Nobody"
            self.told = {
                (OTHER_COLUMNS, 1): [("2 Header", None)],
                (OTHER_BIDDER, 1): [("3 UnknownBidder", 1)],
            }

    def plant(self, count):
        """Plants so many faults. Each fifth record stays as it is, so that there are accepted packages to repeat."""
        places = [
            (form, record)
            for form in self.forms
            for record in range(3, self.bids + 2)
            if record % 5 != 2
        ]
        places += [(BEHIND, line) for line in range(1, GROUP_LINES + 1)]
        self.draw.shuffle(places)
        left = count - len(self.told)
        while left:
            left -= self.plant_at(*places.pop(), left)
        return self

    def plant_at(self, form, record, most):
        change, faults = self.draw.choice(
            [
                plant
                for plant in (GROUP_PLANTS if form == BEHIND else BID_PLANTS)
                if len(plant[1]) <= most
            ]
        )
        if form == BEHIND:
            self.groups[record - 1] = change
        else:
            records = self.forms[form]
            earlier = self.draw.randrange(2, record, 5)
            repeats = ("13 RepeatedPackage", EARLIER) in faults
            fields = [records[record - 1][0], *records[(earlier if repeats else record) - 1][1:]]
            after = {**dict(enumerate(fields, 1)), **change}
            records[record - 1] = [
                after[field] for field in sorted(after) if after[field] is not None
            ]
            faults = [(fault, earlier if field == EARLIER else field) for fault, field in faults]
        if self.has_other_headers and form in (OTHER_COLUMNS, OTHER_BIDDER):
            # of the one nothing more is told, of the other nothing of an eligibility
            faults = [
                (fault, field)
                for fault, field in faults
                if form == OTHER_BIDDER and fault != "11 OverEligibility"
            ]
        if faults:
            self.told[form, record] = faults
        return len(faults)

    def line(self, form, record, fault, field):
        if form == BEHIND:
            return "groups: %s at line %d" % (fault, record) + self.of_groups(record, fault, field)
        line = "form %d: %s at record %d" % (form, fault, record)
        if fault == "13 RepeatedPackage":
            # bids with a fault don't count
            return line + ", earlier bid %d" % sum(
                (form, other) not in self.told for other in range(2, field + 1)
            )
        return line + self.of_form(self.forms[form][record - 1], fault, field)

    def of_groups(self, record, fault, field):
        """What stands behind a fault of a line of groups."""
        return (
            of_name(field, self.groups[record - 1].split("+")[field - 1], WRONG[fault])
            if field
            else ""
        )

    @staticmethod
    def of_form(fields, fault, field):
        """What stands behind a fault of a record of a form."""
        if fault == "2 Header":
            return of_field(2, fields[1], " in place of " + CATEGORIES[0])
        if fault == "4 FieldCount":
            return ": %d fields in place of %d" % (len(fields), len(CATEGORIES) + 1)
        if fault == "10 EmptyPackage":
            return ": each quantity is 0"
        if fault == "14 TooManyBids":
            return ": more than 4000 bids"
        if fault == "11 OverEligibility":
            return ": %d points, above the eligibility of %d" % (
                weighed(fields, POINTS),
                ELIGIBILITY,
            )
        wrong = (
            " is below the reserve of %d" % weighed(fields, RESERVES)
            if fault == "12 BelowReserve"
            else WRONG[fault]
        )
        return of_field(field, fields[field - 1], wrong)

    def lines(self):
        lines = [
            self.line(*place, *fault)
            for place, faults in sorted(self.told.items())
            for fault in faults
        ]
        more = len(lines) - MOST_LINES
        return lines[:MOST_LINES] + (["and %d more" % more] if more > 0 else [])

    def text(self, rules=tuple(right for right, *_ in RULES)):
        parts = [("%form", map(",".join, records)) for records in self.forms.values()]
        for part in (("%groups", self.groups), ("%rules", rules)):
            parts.insert(self.draw.randrange(len(parts) + 1), part)
        return "".join(line + "\n" for head, lines in parts for line in (head, *lines))
