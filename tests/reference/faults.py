"""The refusals by their numbers, and the faults that have them."""

NAMES = {
    1: "OverLimit", 2: "MessageNotInflight", 3: "ReceiptHandleIsInvalid", 4: "BadTimeout", 5: "MissingGroup",
    6: "MissingDeduplication", 7: "BadDelay", 8: "TaskRunning", 9: "NoTask", 10: "NotToml", 11: "UnknownKey",
    12: "MissingKey", 13: "WrongType", 14: "OutOfRange", 15: "BadName", 16: "NameTwice", 17: "UnknownQueue",
    18: "KindMismatch", 19: "TooMany", 20: "BadScript", 30: "WindowTooLong", 31: "BadMap", 32: "BadWorkers",
    36: "Write"}


class Fault(Exception):
    """What ends the program: a number from 10 on, and a place or the values of a refused run."""

    def __init__(self, number: int, place: str = "", values: str = "") -> None:
        super().__init__(number, place, values)
        self.number, self.place, self.values = number, place, values

    def line(self) -> str:
        values = f" {self.values}" if self.values else ""
        place = f" at {self.place}" if self.place else ""
        return f"refused {self.number} {NAMES[self.number]}{values}{place}"


def must(holds: object, number: int, place: str) -> None:
    """Raises the fault of a number at a place unless something holds."""
    if not holds:
        raise Fault(number, place)


class Refused(Exception):
    """The answer to a call that a queue or a task refuses, by its number."""

    def __init__(self, number: int) -> None:
        super().__init__(number)
        self.name = NAMES[number]


def grant(holds: object, number: int) -> None:
    """Raises the refusal of a number unless something holds."""
    if not holds:
        raise Refused(number)
