"""Times with units, as people write and read them. The tools import it; it is not a command."""
from __future__ import annotations

import math
import re
from fractions import Fraction

from .console import Fault, refuse, shown

# The units of a time in milliseconds.
UNITS = {"ms": 1, "s": 1_000, "m": 60_000, "min": 60_000, "h": 3_600_000, "d": 86_400_000}
NUMBER = r"[0-9]{1,18}(?:\.[0-9]{1,9})?"
UNIT = "|".join(sorted(UNITS, key=len, reverse=True))
QUANTITY = re.compile(rf"({NUMBER})[ ]?({UNIT})?")
# A time of several numbers, as 1h30m, and one by the clock, as 4:40:00 or 0:01:02.003.
SEVERAL = re.compile(rf"(?:{NUMBER} ?(?:{UNIT}) ?){{2,6}}")
PART = re.compile(rf"({NUMBER}) ?({UNIT})")
CLOCK = re.compile(r"([0-9]{1,9}):([0-5][0-9]):([0-5][0-9](?:\.[0-9]{1,3})?)")

# The times below which a duration is shown to a step, in milliseconds.
STEPS: tuple[tuple[float, int], ...] = (
    (1_000, 1), (10_000, 10), (60_000, 100), (3_600_000, 1_000), (86_400_000, 60_000), (math.inf, 3_600_000))


def quantity(text: str) -> tuple[Fraction, str | None] | None:
    """The number in a text, in milliseconds if it is a time, and its least unit or None; None if it is neither."""
    text = text.strip()
    if match := QUANTITY.fullmatch(text):
        return Fraction(match[1]) * UNITS.get(match[2], 1), match[2]
    if match := CLOCK.fullmatch(text):
        return Fraction(match[1]) * UNITS["h"] + Fraction(match[2]) * UNITS["m"] + Fraction(match[3]) * UNITS["s"], "s"
    parts = PART.findall(text) if SEVERAL.fullmatch(text) else []
    sizes = [UNITS[unit] for _, unit in parts]
    if not parts or sizes != sorted(set(sizes), reverse=True):
        return None
    return sum((Fraction(number) * UNITS[unit] for number, unit in parts), Fraction()), parts[-1][1]


def number_of(text: str) -> float:
    """The number of a column, which is whole but for costs."""
    return float(text) if "." in text else int(text)


def decimal(value: float, digits: int = 3) -> str:
    """A number with so many digits at most behind its point."""
    return f"{value:.{digits}f}".rstrip("0").rstrip(".")


def several(number: int, what: str) -> str:
    """As 1 row, or 2 rows."""
    return f"{number:,} {what}{'' if number == 1 else 's'}"


def duration(milliseconds: int) -> str:
    """A time in two units, or with three digits."""
    for below, step in STEPS:
        rounded = (milliseconds + step // 2) // step * step
        if rounded < below:
            break
    if rounded < 1_000:
        return f"{rounded} ms"
    if rounded < 60_000:
        return f"{rounded / 1_000:.{2 if rounded < 10_000 else 1}f} s"
    minutes, seconds = divmod(rounded // 1_000, 60)
    if minutes < 60:
        return f"{minutes} min {seconds} s"
    hours, minutes = divmod(minutes, 60)
    if hours < 24:
        return f"{hours} h {minutes} min"
    return f"{hours // 24} day{'s' if hours >= 48 else ''} {hours % 24} h"


def exact(milliseconds: int) -> str:
    """A time with the greatest unit that it has a whole number of, as an option takes it."""
    return next(f"{milliseconds // UNITS[unit]}{unit}" for unit in ("h", "m", "s", "ms")
                if milliseconds % UNITS[unit] == 0)


def clock(milliseconds: int) -> str:
    """A moment of a run by its clock, such as 0:01:02.003."""
    seconds, thousandths = divmod(milliseconds, 1_000)
    minutes, hours = seconds // 60 % 60, seconds // 3_600
    return f"{hours}:{minutes:02}:{seconds % 60:02}.{thousandths:03}"


def moment_of(option: str, text: str | None) -> int | None:
    """The milliseconds of a time that an option has, such as 90s or 1h30m, without a unit milliseconds; None without
    one."""
    if text is None:
        return None
    found = quantity(text)
    if found is None or found[0].denominator != 1:
        raise Fault(f"{option} {shown(text)} is no time, as 90s, 1.5h, 1h30m or 1:30:00")
    return int(found[0])


def window_of(first: str | None, last: str | None) -> tuple[int | None, int | None]:
    """The two ends, in milliseconds, of what is counted by --from and --to."""
    begin, end = moment_of("--from", first), moment_of("--to", last)
    refuse(begin is not None and end is not None and begin > end, f"--from {first} is after --to {last}")
    return begin, end
