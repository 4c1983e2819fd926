"""Numbers as whole millionths: numerals, decimals, and rounding to the nearest, halves away from zero."""
import re
import sys
from fractions import Fraction

UNIT = 1_000_000
MOST = 1_000_000_000 * UNIT
MOST_INT = 2_147_483_647
NUMERAL = re.compile(r"[+-]?(?:[0-9]+\.?[0-9]*|\.[0-9]+)(?:[eE][+-]?[0-9]+)?")
FAR = 9_999  # an exponent that leaves nothing of any number here, or makes each too large
getattr(sys, "set_int_max_str_digits", lambda most: None)(0)  # numerals have any length


class OutOfRange(Exception):
    pass


def rounded(number, by=1):
    """The whole number nearest to number / by, a half away from zero."""
    exact = Fraction(number) / by
    size = (abs(exact) * 2 + 1) // 2
    return int(size if exact >= 0 else -size)


def in_range(number):
    if abs(number) > MOST:
        raise OutOfRange
    return number


def product(one, other):
    return in_range(rounded(one * other, UNIT))


def numeral(text):
    """The millionths that a text says, or None where it is no numeral in range."""
    if not NUMERAL.fullmatch(text):
        return None
    mantissa, _, exponent = text.lower().partition("e")
    power = max(-FAR, min(FAR, int(exponent or "0")))
    number = rounded(Fraction(mantissa) * Fraction(10) ** power * UNIT)
    return number if abs(number) <= MOST else None


def numerals(text):
    """The numbers of a text of numerals between blanks; None stands for one that is none."""
    return [numeral(word) for word in words(text)]


def words(text):
    return [word for word in re.split("[ \t\r\n]+", text) if word]


def decimal(number):
    """The shortest plain decimal."""
    whole, rest = divmod(abs(number), UNIT)
    fraction = f"{rest:06d}".rstrip("0")
    return ("-" if number < 0 else "") + str(whole) + ("." + fraction if fraction else "")
