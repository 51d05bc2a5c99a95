"""The rules of a journal, as docs/FORMATS.md says them."""

from pathlib import Path

DOCUMENT = Path(__file__).resolve().parent.parent / "docs" / "FORMATS.md"
HEAD = "| Rule | Of which events | What it says |"


def table() -> dict[int, tuple[str, str]]:
    """Each rule's events and its sentence, by its number; empty where the document is missing."""
    try:
        lines = iter(DOCUMENT.read_text(encoding="utf-8").splitlines())
    except OSError:
        return {}
    rules: dict[int, tuple[str, str]] = {}
    events, before = "", ""
    for line in lines:
        if line == HEAD:
            break
    next(lines, None)
    for line in lines:
        cells = [cell.strip() for cell in line.strip("|").split("|")]
        if len(cells) != 3 or not cells[0].isdigit():
            break
        events = cells[1].replace("`", "") or events
        sentence = cells[2].replace("`", "")
        if sentence.startswith("the same, "):
            sentence = before + sentence.removeprefix("the same")
        rules[int(cells[0])] = (events, sentence)
        before = sentence
    return rules
