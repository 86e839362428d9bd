"""Tests times with units, as options and requirements have them."""
from fractions import Fraction

from tool import ToolCase
from rehearse_tools.console import Fault
from rehearse_tools.units import clock, moment_of, quantity


class Times(ToolCase):
    def test_times(self) -> None:
        for text, milliseconds in (
                ("90s", 90_000), ("1.5h", 5_400_000), ("250", 250), ("1h30m", 5_400_000), ("4h40m", 16_800_000),
                ("4 h 40 min", 16_800_000), ("1d 2h 3min 4s 5ms", 93_784_005), ("4:40:00", 16_800_000),
                ("0:01:30", 90_000), ("100:00:00", 360_000_000), ("0:01:02.003", 62_003), ("0:00:00.5", 500)):
            with self.subTest(text=text):
                self.assertEqual(moment_of("--from", text), milliseconds)

    def test_what_is_no_time(self) -> None:
        """The numbers of a time come with their units, the greatest first, and a clock has two digits each."""
        for text in ("30m1h", "1h1h", "1h30", "h", "4:40", "4:60:00", "4:40:60", "4:4:00", "1h-5m", "0:00:00.0005",
                     "1min5m", ""):
            with self.subTest(text=text), self.assertRaises(Fault) as caught:
                moment_of("--from", text)
            self.assertIn(" is no time, as 90s, 1.5h, 1h30m or 1:30:00", str(caught.exception))

    def test_quantities(self) -> None:
        """Only a time has a unit."""
        self.assertEqual(quantity("5"), (Fraction(5), None))
        self.assertEqual(quantity("1m0.5s"), (Fraction(60_500), "s"))
        self.assertEqual(quantity(clock(62_003)), (Fraction(62_003), "s"))
