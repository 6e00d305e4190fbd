"""Rounding, roots and decimals."""
import math
import sys

if hasattr(sys, "set_int_max_str_digits"):
    sys.set_int_max_str_digits(0)

E6 = 10**6
E9 = 10**9
E12 = 10**12
E15 = 10**15
E17 = 10**17
E18 = 10**18
E30 = 10**30
E36 = 10**36


def near(a: int, b: int) -> int:
    """The whole number nearest to a/b; a half goes away from zero; near(a, 0) is 0."""
    if b == 0:
        return 0
    if b < 0:
        a, b = -a, -b
    if a >= 0:
        return (2 * a + b) // (2 * b)
    return -((-2 * a + b) // (2 * b))


def isqrt(x: int) -> int:
    """The greatest whole number whose square is at most x."""
    return math.isqrt(x)


def print_fixed(x: int, places: int) -> str:
    """x divided by 10^places as a decimal without trailing zeros."""
    sign = "-" if x < 0 else ""
    whole, rest = divmod(abs(x), 10**places)
    text = sign + str(whole)
    if rest:
        text += "." + str(rest).rjust(places, "0").rstrip("0")
    return text
