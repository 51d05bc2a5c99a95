"""Checks that docs/DEFINITIONS.md links every definition to believe, and docs/LAYERS.md the rest.

The two pages link every file of specs/ but each crate's Lib.antt. The check starts with the clauses
of the program's theorem, and follows the names in the text of each definition. The first page links
the files of all these definitions. A name in back quotes there, with a capital letter or an
underscore, is one of them, or is in the theorem.
"""

import re
from collections.abc import Iterable
from pathlib import Path

from tools.checks.tally import Tally

TOUR, LAYERS = Path("docs/DEFINITIONS.md"), Path("docs/LAYERS.md")
THEOREM = tuple(
    Path("crates") / name
    for name in ("script_main/src/program.rt", "script_main/src/main.rt",
                 "script_answers/src/plain.rt", "script_answers/specs/Conducts.antt"))

USE = re.compile(
    r"^(?:pub )?use Rattle\.(?P<crate>\w+)\.specs\.(?P<file>[A-Z]\w*)(?:\.\{(?P<names>[^}]*)\}| as "
    r"(?P<alias>\w+))?;?$",
    re.MULTILINE,
)
ANY_USE = re.compile(r"^(?:pub )?use [^{\n]*(?:\{[^}]*\}|\n)", re.MULTILINE)
DEFINITION = re.compile(r" *(?:(?:abbrev|unfoldable) pub|pub (?:record|data)) (\S+)")
NAME = re.compile(r"[^\s,]+")
QUOTED = re.compile(r"`(\w*[A-Z_]\w*)`")

At = tuple[str, str]  # a crate, and the name of a file of its specs/
# the same, or None where it is this file, and a name of it
Rest = tuple[str | None, str | None, str]


class Spec:
    """A file of specs/: its definitions with their texts, and the names that it uses of others."""

    def __init__(self, path: Path) -> None:
        text = "\n".join(line
                         for line in path.read_text(encoding="utf-8").split("\n")
                         if not line.lstrip().startswith("--"))
        self.imports: dict[str, At] = {}
        self.aliases: dict[str, At] = {}
        self.definitions: dict[str, str] = {}
        self.common = ""
        for match in USE.finditer(text):
            if match["alias"]:
                self.aliases[match["alias"]] = (match["crate"], match["file"])
            for name in NAME.findall(match["names"] or ""):
                self.imports[name] = (match["crate"], match["file"])
        name = None
        for line in ANY_USE.sub("", text).split("\n"):
            if found := DEFINITION.match(line):
                name = found[1]
            elif line and not line.startswith(" "):
                name = name if name and re.match(rf"{re.escape(name)}\b", line) else None
            if name is None:
                self.common += line + "\n"
            else:
                self.definitions[name] = self.definitions.get(name, "") + line + "\n"

    def rests_on(self, name: str) -> list[Rest]:
        """The names that a definition uses, of other files and of this one.

        A name that has no letters counts as used.
        """
        if name not in self.definitions:
            return [(*self.imports[name], name)] if name in self.imports else []
        text = self.definitions[name] + self.common
        words = set(re.findall(r"[A-Za-z_]\w*", text))
        found: list[Rest] = [(None, None, word)
                             for word in self.definitions
                             if word in words or not re.match(r"\w", word)]
        found += [(*at, word)
                  for word, at in self.imports.items()
                  if word in words or not re.match(r"\w", word)]
        for alias, at in self.aliases.items():
            found += [(*at, word) for word in re.findall(rf"\b{alias}\.(\w+)", text)]
        return found


def text_of(top: Path, names: Iterable[Path]) -> str:
    """The texts of files, joined."""
    return "\n".join((top / name).read_text(encoding="utf-8") for name in names)


def believed(top: Path) -> dict[At, set[str]]:
    """The definitions under the clauses of the program's theorem, by their files of specs/."""
    theorem = USE.findall(text_of(top, THEOREM).replace("ghost use", "use"))
    todo = [
        (crate, file, name) for crate, file, names, _ in theorem for name in NAME.findall(names)
    ]
    specs: dict[At, Spec] = {}
    found: dict[At, set[str]] = {}
    while todo:
        crate, file, name = todo.pop()
        path = top / "crates" / crate / "specs" / f"{file}.antt"
        if name in found.get((crate, file), ()) or not path.exists():
            continue
        spec = specs.setdefault((crate, file), Spec(path))
        found.setdefault((crate, file), set()).add(name)
        todo += [(of or crate, at or file, word) for of, at, word in spec.rests_on(name)]
    own = {
        at: {name for name in names if name not in specs[at].imports} for at, names in found.items()
    }
    return {at: names for at, names in own.items() if names}


def check(top: Path, _program: Path, tally: Tally) -> None:
    """Reports each file that a page must link and does not, and each unknown name in the tour."""
    tour, rests_on = text_of(top, [TOUR]), believed(top)
    every = {(path.parts[-3], path.stem)
             for path in (top / "crates").glob("*/specs/*.antt") if path.stem != "Lib"}
    for where, text, files in ((f"{TOUR} or {LAYERS}", text_of(top, [TOUR, LAYERS]), every),
                               (TOUR, tour, rests_on)):
        linked = set(re.findall(r"crates/(\w+)/specs/(\w+)\.antt", text))
        for crate, name in sorted(files):
            tally.tell(f"{crate}/specs/{name}.antt",
                       None if (crate, name) in linked else f"{where} has no link to it")
    names = set().union(*rests_on.values(), re.findall(r"\w+", text_of(top, THEOREM)))
    for name in sorted(set(QUOTED.findall(tour))):
        tally.tell(f"{TOUR}: {name}",
                   None if name in names else "the theorem rests on no definition of this name")
