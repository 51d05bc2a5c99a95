"""Numbers and lists in plain words."""

from collections.abc import Iterable


def counted(number: int, one: str, more: str | None = None) -> str:
    """A number of things."""
    return f"1 {one}" if number == 1 else f"{number:,} {more or one + 's'}"


def joined(numbers: Iterable[int]) -> str:
    """Rising numbers, with what follows one after another as a range."""
    runs: list[list[int]] = []
    for number in numbers:
        if runs and number == runs[-1][1] + 1:
            runs[-1][1] = number
        else:
            runs.append([number, number])
    return ", ".join(str(first) if first == last else f"{first} to {last}" for first, last in runs)
