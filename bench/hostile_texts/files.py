"""Files that an enemy chose for ./wdp-office gather and ./wdp-office explain, and the words that a run on them takes.

rows, quotes, fields, empty, quoted: one form of rows of one package, of doubled quotes in one field, of one row's commas, of
  rows without anything, and of one row's quoted fields; ./wdp-office gather refuses it.
untrue: one form of rows with three faults each, which ./wdp-office gather tells.
bids: a form for which ./wdp-office explain --bids tells what is left out, of so many bids over 32 categories, of which those at
  places that a sample may take ask for 10,000 lots.
gathered, explained: a form of so many bids as bench/make_input makes it, for either tool.
"""
import os
import shutil

import measuring

HEADER = b"Ant,Low,High\n"
RULES = b"rules,1,1,,\ncategory,Low,6,0,0\ncategory,High,4,0,0\nbidder,Ant,20,1,\n"
ROWS = {"rows": b"5000,2,1\n", "fields": b",", "empty": b",,\n", "quoted": b'"",', "untrue": b"x,y,z\n"}


def far_apart_at_places(bids, categories=32):
    """An input with a form whose bids ask for few lots, but for one in 128, at places that a sample may take, for 10,000 of each."""
    names = ["C%d" % number for number in range(1, categories + 1)]
    rows = []
    for bid in range(bids):
        # the digits of the bid's number, so that packages differ and many are within one another
        package = [bid >> place & 1 for place in range(12)] + [1] * (categories - 12)
        if bid % 128 == 0:
            rows.append([20_000 + bid] + [10_000 - quantity for quantity in package])
        else:
            rows.append([1_000 + sum(package)] + package)
    lines = ["%rules", "rules,1,1,,", *("category,%s,10000,0,0" % name for name in names), "bidder,Alpha,0,1,",
             "%form", ",".join(["Alpha"] + names), *(",".join(map(str, row)) for row in rows), "%groups", "-"]
    return "".join(line + "\n" for line in lines).encode()


def written(path, text):
    os.makedirs(os.path.dirname(path), exist_ok=True)
    with open(path, "wb") as file:
        file.write(text)
    return path


def many(folder, count):
    """The names of so many empty files, which are numbers, in a folder of their own."""
    os.makedirs(folder, exist_ok=True)
    names = [str(number) for number in range(count)]
    for name in names:
        with open(os.path.join(folder, name), "wb"):
            pass
    return names


def gather_words(folder, rules, form, bidder="Ant"):
    shutil.rmtree(os.path.join(folder, "forms"), ignore_errors=True)
    where = written(os.path.join(folder, "forms", bidder + ".csv"), form)
    return ["gather", written(os.path.join(folder, "rules.csv"), rules), os.path.dirname(where),
            written(os.path.join(folder, "groups.txt"), b"-\n")], len(form)


def form_of(kind, size):
    """The bytes of a form that ./wdp-office gather refuses."""
    if kind == "quotes":
        return HEADER + b'"' + b'""' * (size // 2) + b'",1,1\n'
    return HEADER + ROWS[kind] * (size // len(ROWS[kind])) + b"1\n"


def made(kind, size, folder):
    """Leaves the files of a run in a folder, and gives the tool, its words, and the bytes of the form."""
    if kind in ("bids", "explained"):
        text = far_apart_at_places(size) if kind == "bids" else measuring.make_input(1, size, 32, 1)
        text = text.split(b"%groups")[0]
        return ["explain", "--bids", written(os.path.join(folder, "input.txt"), text)], len(text)
    if kind == "gathered":
        rules, form = measuring.make_input(1, size, 32, 1).split(b"%groups")[0].removeprefix(b"%rules\n").split(b"%form\n")
        return gather_words(folder, rules, form, form.split(b",", 1)[0].decode("ascii"))
    return gather_words(folder, RULES, form_of(kind, size))
