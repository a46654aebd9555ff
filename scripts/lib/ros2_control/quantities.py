"""Numbers of the files, exactly as they are written, and as our documents write them: with at most six decimals."""

import re
from decimal import ROUND_DOWN, ROUND_HALF_EVEN, Context, Decimal

from .listing import Refused, quoted

MOST_UNITS = 1_000_000_000  # a quantity lies between this and its negative
DECIMALS = 6
HIGHEST_RATE = 10_000  # hertz
MOST_SHOWN = 20  # digits of a number that a line shows
MICRO = Decimal(1).scaleb(-DECIMALS)
# Digits that are held while a number is rounded: all that it may have.
EXACT = Context(prec=1200)
FORM = re.compile(r"[+-]?(\d{1,300}(\.\d{0,300})?|\.\d{1,300})([eE][+-]?\d{1,2})?", re.ASCII)
WHOLE = re.compile(r"[+-]?\d{1,18}", re.ASCII)


def number(text, place, what):
    """Returns the number that the text is, as it is written."""
    if not FORM.fullmatch(text):
        raise Refused(place, f"{what} is {quoted(text)}, which is no number{hint(text)}")
    found = Decimal(text)
    if abs(found) > MOST_UNITS:
        raise Refused(place, f"{what} is {quoted(text)}, which is beyond {MOST_UNITS}")
    return found


def whole(text, place, what, least, most):
    if not WHOLE.fullmatch(text) or not least <= int(text) <= most:
        raise Refused(place, f"{what} is {quoted(text)}, and not a whole number from {least} to {most}{hint(text)}")
    return int(text)


def rounded(value, place, what, listing):
    """Returns the nearest number of six decimals; if it is another one, that is listed."""
    near = value.quantize(MICRO, ROUND_HALF_EVEN, EXACT)
    if near != value:
        listing.rounded(place, f"{what}, from {plain_number(value)} to {script_text(near)}")
    return near


def rounded_down(value, decimals=DECIMALS):
    """Returns the number towards zero that has no more than so many decimals."""
    return value.quantize(Decimal(1).scaleb(-decimals), ROUND_DOWN, EXACT)


def quotient(value, divisor):
    return EXACT.divide(value, divisor)


def plain_number(value):
    """Returns the number as a line shows it: as it was written, but not with all of many digits."""
    text = f"{value:f}"
    return text if len(text) <= MOST_SHOWN else f"{text[:MOST_SHOWN]}.."


def script_text(value):
    """Returns the number as a script has it."""
    text = f"{value:f}"
    text = text.rstrip("0").rstrip(".") if "." in text else text
    return "0" if text in ("-0", "") else text


def toml_text(value):
    """Returns the number as a description has it: a number with decimals is a text."""
    text = script_text(value)
    return f'"{text}"' if "." in text else text


def hint(text):
    """Returns what to do about a text that xacro or a launch file is to replace."""
    return "; $ is not expanded here: run xacro or launch first" if "${" in text or "$(" in text else ""
