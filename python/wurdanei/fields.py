"""How values become the texts of fields, and fields a card.

A number is written with all the digits that its columns hold, and never silently with fewer: what a field loses is
told with it. Python's floats count as the shortest decimal that reads back as the same float, which is what was
typed.
"""

import numbers
import re
import typing
from dataclasses import dataclass
from decimal import ROUND_HALF_UP, Context, Decimal

from .columns import Card, Field

KEEPS = 1e-6  # a field that loses more of a value than this part is left for a wider one where there is one
LOSES = 1e-3  # more than this part is never lost
EXACT = Context(prec=60)
NUMBER = re.compile(r"([+-]?(?:\d+\.?\d*|\.\d+))(?:[EeDd]([+-]?\d{1,3})|([+-]\d{1,3}))?$")


class FieldError(ValueError):
    """Why a value isn't written into its field, in words."""


@dataclass(frozen=True)
class Fitted:
    """The text of a number in its field, the whole number that is kept of it, and which part of the value is lost."""

    text: str
    kept: int
    loss: float = 0.0


def exact(value: numbers.Real | Decimal | float, what: str) -> Decimal:
    """A value as the decimal that was meant."""
    if isinstance(value, Decimal):
        number = value
    elif isinstance(value, (bool, str)) or not isinstance(value, numbers.Real):
        raise FieldError(f"{what} = {value!r} is no number")
    elif isinstance(value, numbers.Integral):
        number = Decimal(int(value))
    else:
        number = Decimal(repr(float(value)))
    if not number.is_finite():
        raise FieldError(f"{what} = {value!r} is no finite number")
    return number


def nearest(number: Decimal) -> int:
    """The nearest whole number, a half away from zero."""
    return int(number.to_integral_value(ROUND_HALF_UP, EXACT))


def kept_of(text: str, scale: int) -> int:
    """What a field of this scale keeps of a text."""
    match = NUMBER.match(text.strip())
    if match is None:
        raise FieldError(f"{text!r} is no number of a card")
    return nearest(EXACT.scaleb(Decimal(match[1]), int(match[2] or match[3] or 0) + scale))


def shown(kept: int, scale: int, unit: str = "") -> str:
    """A kept number with its unit, as a reader writes it."""
    return f"{brief(EXACT.scaleb(Decimal(kept), -scale))} {unit}".rstrip()


def brief(number: Decimal) -> str:
    """A number in few characters: with a power of ten where it is far from 1."""
    number = number.normalize(EXACT)
    if -6 < number.adjusted() < 7:
        return f"{number:f}"
    return f"{number:e}".replace("E+", "e").replace("E", "e").replace("e+", "e")


def spellings(digits: str, power: int) -> typing.Iterator[str]:
    """The ways to write digits times ten to the power, the most readable ones first; digits don't end with 0."""
    count, lead = len(digits), power + len(digits) - 1
    scientific = f"{digits[0]}.{digits[1:]}E{lead}"
    if power >= 0:
        plain = digits + "0" * power + "."
    elif count > -power:
        plain = digits[:power] + "." + digits[power:]
    else:
        plain = "." + "0" * (-power - count) + digits
    shorter = len(plain) <= len(scientific) + 1 if lead >= 0 else len(plain) < len(scientific)
    yield from (plain, scientific) if shorter else (scientific, plain)
    yield f"{digits[0]}.{digits[1:]}{lead:+d}"
    yield f".{digits}E{lead + 1}"
    yield f"{digits}E{power}"
    yield f"{digits}{power:+d}"
    if power >= 0:
        yield digits + "0" * power


def rounded(kept: int, count: int) -> tuple[str, int]:
    """The nearest number of so many digits at most: digits without zeros at their end, and the power of ten behind
    them."""
    text = str(kept)
    power = max(0, len(text) - count)
    digits = str(nearest(EXACT.scaleb(Decimal(kept), -power)))
    power += len(digits) - len(digits.rstrip("0"))
    return digits.rstrip("0"), power


def fitted(value: numbers.Real | Decimal | float, field: Field, width: int | None = None) -> Fitted:
    """The value in at most `width` columns (those of the field), as near as they hold it.

    Raises FieldError where the value is out of the field's range, or where more than LOSES of it would be lost; but
    what is below half of the least number that is kept is 0.
    """
    width = field.width if width is None else width
    number = exact(value, field.name)
    kept = within(number, field)
    if number == 0:
        return Fitted("0.", 0)
    sign = "-" if kept < 0 else ""
    best = Fitted("0.", 0, 1.0)
    count = len(str(abs(kept))) if kept else 0
    while count:
        digits, power = rounded(abs(kept), count)
        text = next((it for it in spellings(digits, power - field.scale) if len(sign + it) <= width), None)
        if text is not None:
            own = int(digits) * 10**power * (-1 if sign else 1)
            best = Fitted(sign + text, own, lost(number, own, field.scale))
            break
        count = len(digits) - 1
    # below half of what is kept a number is noise of a computation, but where 0 says another thing than nothing
    nothing = kept == 0 and field.unit != "uF" and field.blank != "1"
    if best.loss > LOSES and not nothing:
        becomes = (
            f"{field.name} = {value} {field.unit}".rstrip() + f" becomes {shown(best.kept, field.scale, field.unit)}"
        )
        whole = lost(number, kept, field.scale) > LOSES  # no column would help
        cause = f"as it is kept in whole {field.kept_unit}" if whole else f"in columns {field.first}-{field.last}"
        raise FieldError(f"{becomes} {cause}, {best.loss:.2g} of it lost")
    return best


def lost(number: Decimal, kept: int, scale: int) -> float:
    """Which part of a number is lost in what is kept of it."""
    return float(abs(EXACT.scaleb(Decimal(kept), -scale) / number - 1))


def within(number: Decimal, field: Field) -> int:
    """The whole number that the field keeps; out of its range it is refused, or held to the nearer end."""
    kept = nearest(EXACT.scaleb(number, field.scale))
    if field.held:
        return max(field.low, min(field.high, kept))
    if field.low <= kept <= field.high:
        return kept
    low, high = (shown(end, field.scale, field.unit) for end in (field.low, field.high))
    raise FieldError(f"{field.name} = {number} {field.unit}".rstrip() + f" is out of its range, {low} to {high}")


def roomy(value: numbers.Real | Decimal | float, field: Field) -> Fitted:
    """The value with a column left for a blank, where that loses no more than KEEPS of it and a point is there; else
    in all columns."""
    whole = fitted(value, field)
    try:
        found = fitted(value, field, field.width - 1)
    except FieldError:
        return whole
    pointed = "." in found.text or "." not in whole.text
    return found if found.loss <= max(KEEPS, whole.loss) and pointed else whole


def named(text: str, field: Field) -> str:
    """A name as it stands in its field."""
    width = field.width
    if not isinstance(text, str):
        raise FieldError(f"{field.name} = {text!r} is no name")
    if not 0 < len(text) <= width or text != text.strip(" ") or "," in text or not all(" " <= it <= "~" for it in text):
        raise FieldError(
            f"{text!r} is no name: one has 1 to {width} characters of ASCII, no blank at its ends and no comma"
        )
    return text


def card(kind: Card, texts: typing.Mapping[str, str]) -> str:
    """The card of these fields: names begin in their first column, numbers end in their last one.

    Of two numbers that would touch, the left one moves by a column where it has room.
    """
    line = kind.blank()
    taken = 0  # the first column of the number behind
    for field in sorted(kind.fields, key=lambda it: -it.first):
        text = texts.get(field.name, "")
        if not text:
            continue
        if len(text) > field.width:
            raise FieldError(f"{field.name}: {text} has more than the {field.width} columns of its field")
        last = field.last - 1 if taken == field.last + 1 and len(text) < field.width else field.last
        first = field.first if field.kind in ("name", "text", "sign") else last - len(text) + 1
        line[first - 1 : first - 1 + len(text)] = text
        taken = first if field.kind == "number" else 0
    return "".join(line).rstrip()
