"""Forms whose packages shared a fingerprint while that was a polynomial modulo 2 to the 64th.

Its multiplier is a hash of the form's text, so it isn't known beforehand. But it is 1 modulo 256 for one of 128 amounts of
the last bid, and then its distance from 1, to the 8th power, is 0 modulo 2 to the 64th. So packages that differ by the
coefficients of (x - 1) ** 8 had one fingerprint, whatever else the multiplier is. All have one size, and one amount but the
last, so that no bid dominates another.
"""
import itertools
import struct
from collections.abc import Iterator

from hostile_texts.forms import BIDS, CATEGORIES, rules

COEFFICIENTS = [1, -8, 28, -56, 70, -56, 28, -8, 1]
SHIFTS, FACTORS = 4, range(8)  # at how many places they begin, and how often each is added
FIRST = CATEGORIES - SHIFTS - len(COEFFICIENTS) + 1  # the first category in which packages differ
MIDDLE = 3000
MASK = (1 << 64) - 1
State = tuple[int, int, int, int]
START = (0x736F6D6570736575, 0x646F72616E646F6D, 0x6C7967656E657261, 0x7465646279746573)


def sip_round(v0: int, v1: int, v2: int, v3: int) -> State:
    v0, v2 = (v0 + v1) & MASK, (v2 + v3) & MASK
    v1, v3 = (v1 << 13 & MASK | v1 >> 51) ^ v0, (v3 << 16 & MASK | v3 >> 48) ^ v2
    v0 = ((v0 << 32 & MASK | v0 >> 32) + v3) & MASK
    v2 = (v2 + v1) & MASK
    v1, v3 = (v1 << 17 & MASK | v1 >> 47) ^ v2, (v3 << 21 & MASK | v3 >> 43) ^ v0
    return v0, v1, v2 << 32 & MASK | v2 >> 32, v3


def with_words(state: State, data: bytes) -> State:
    """The state of SipHash-1-3 after words of eight bytes."""
    v0, v1, v2, v3 = state
    for (word,) in struct.iter_unpack("<Q", data):
        v0, v1, v2, v3 = sip_round(v0, v1, v2, v3 ^ word)
        v0 ^= word
    return v0, v1, v2, v3


def finished(state: State, rest: bytes, length: int) -> int:
    """The hash of a text of some length that ends with these bytes."""
    whole = len(rest) // 8 * 8
    last = rest[whole:].ljust(7, b"\0") + bytes([length % 256])
    v0, v1, v2, v3 = with_words(with_words(state, rest[:whole]), last)
    v2 ^= 0xFF
    for _ in range(3):
        v0, v1, v2, v3 = sip_round(v0, v1, v2, v3)
    return v0 ^ v1 ^ v2 ^ v3


def packages() -> Iterator[list[int]]:
    for factors in itertools.product(FACTORS, repeat=SHIFTS):
        package = [1] * FIRST + [MIDDLE] * (CATEGORIES - FIRST)
        for start, factor in enumerate(factors, FIRST):
            for place, coefficient in enumerate(COEFFICIENTS, start):
                package[place] += factor * coefficient
        yield package


def form(bidder: int) -> str:
    """A form of whose text the hash is 0 or 1 modulo 256."""
    names = [f"Band{place + 1}" for place in range(CATEGORIES)]
    fields = [",".join(map(str, package)) for package in itertools.islice(packages(), BIDS)]
    lines = [",".join([f"Bidder{bidder}", *names]), *(f"1000,{bid}" for bid in fields[:-1])]
    before = "".join(line + "\n" for line in lines).encode("ascii")
    whole = len(before) // 8 * 8
    state = with_words(START, before[:whole])
    for amount in range(1000, 10000):
        last = f"{amount},{fields[-1]}\n".encode("ascii")
        if finished(state, before[whole:] + last, len(before + last)) & 0xFE == 0:
            return (before + last).decode("ascii")
    raise ValueError("no amount of four digits leads to such a hash")


def prints(forms: int) -> str:
    lines = "\n".join(rules(CATEGORIES, forms)) + "\n"
    return lines + "".join("%form\n" + form(number + 1) for number in range(forms))
