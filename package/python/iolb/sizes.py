"""Sizes as people write them: `4096`, `1e6`, `2^20`, `32K`, `64KiB/8`, and `NAME=SIZE`."""

import re
from fractions import Fraction

from iolb.command import Fault

UNITS = {"": 1, "K": 1 << 10, "M": 1 << 20, "G": 1 << 30, "KiB": 1 << 10, "MiB": 1 << 20, "GiB": 1 << 30, "kB": 10**3, "MB": 10**6, "GB": 10**9, "B": 1}
NUMBER = re.compile(r"(\d+(?:\.\d+)?(?:[eE]\d+)?|\d+\^\d+)(%s)?(?:/(\d+))?" % "|".join(sorted(filter(None, UNITS), key=len, reverse=True)))
MOST = (1 << 63) - 1


def parts_of(text):
    """A number as it is written, whether its unit is of bytes, and by what it is divided, or None."""
    found = NUMBER.fullmatch(text.strip().replace(",", "").replace("_", ""))
    if not found:
        raise Fault("%s isn't a size: write it as 4096, 1e6, 2^20, 32K (of 1024) or 64KiB/8" % text)
    written, unit, by = found[1], found[2] or "", found[3]
    if "^" in written:
        base, power = map(int, written.split("^"))
        if base > MOST or power > 63:
            raise Fault("%s is too great" % text)
        return Fraction(base**power * UNITS[unit]), unit.endswith("B"), by
    if len(written) > 40 or int(written.lower().partition("e")[2] or 0) > 40:
        raise Fault("%s is too great" % text)
    return Fraction(written) * UNITS[unit], unit.endswith("B"), by


def whole(text, word=None):
    """The whole number that a size says; bytes without a division are words of so many bytes, where that is given.

    A division is rounded down. Faults: what isn't a size, isn't whole, or is beyond 2^63 - 1.
    """
    number, of_bytes, by = parts_of(text)
    if by is None and of_bytes and word:
        by = str(word)
    if by is not None:
        if int(by) == 0:
            raise Fault("%s is divided by 0" % text)
        number = Fraction(number // int(by))
    if number.denominator != 1 or number > MOST:
        raise Fault("%s isn't a whole number below 2^63" % text)
    return int(number)


def named(word):
    """The name and the number of `NAME=SIZE`."""
    name, sign, size = word.partition("=")
    if not sign or not re.fullmatch(r"[A-Za-z_]\w*", name):
        raise Fault("%s isn't a size by name, as N=1000" % word)
    negative = size.startswith("-")
    return name, -whole(size[1:]) if negative else whole(size)


def words_of_memory(text, word=None):
    """The numbers of words that a list such as `1K,32KiB/8,1e6` says, least first."""
    return sorted({whole(it, word) for it in text.split(",")})
