"""Checks that no type derives what nobody uses: each derive is code, and is proved like all code.

The compiler says where Clone, Copy, Drop and Error are missing, and a value without them is no use.
What other traits a type derives outside of tests must be in USES, with a place that needs it, and
that place must still have its text. A test compares by `match`, or by a function of its own.
"""

import re
from collections.abc import Iterator
from pathlib import Path

from tools.checks.crates import REMARK
from tools.checks.tally import Tally

TAKEN = {"Clone", "Copy", "Drop", "Error"}
DERIVE = re.compile(r"#\[derive(?:_where)?\(([^)]*)\)\]\s*")
TYPE = re.compile(r"(?:#\[[^\n]*\]\s*)*(?:pub(?:\([\w: ]+\))? )?(?:struct|enum) (\w+)")

# The type and the trait, and the file below crates/ with the text that needs it.
NAMES = "script_lines/src/names.rt", "set: IndexSet<Name>"
FAULT = "script_answers/src/fault.rt"
SORTED = "sync_core/src/queues.rt", "taken.sort_unstable()"
COMPARED = "gpu_store/src/images.rt", "answer != Answer::Done"
MEMORY = "gpu_word/src/memory.rt Memory"
USES = {
    (MEMORY, "Debug"): ("part_tests/src/tests/words.rt", "make(alloc, plan)?"),  # `?` into Fail
    ("gpu_cmd/src/name.rt Name", "PartialEq"): ("gpu_plan/src/plan.rt", "name == plan.name"),
    ("gpu_cmd/src/name.rt Name", "Eq"): NAMES,
    ("gpu_cmd/src/name.rt Name", "Hash"): NAMES,
    ("gpu_store/src/op.rt Answer", "PartialEq"): COMPARED,
    ("gpu_store/src/op.rt Answer", "Eq"): COMPARED,
    ("script_answers/src/fault.rt Fault", "Debug"): (FAULT, "Debug, Error)]"),
    ("script_lines/src/fault.rt Kind", "Debug"): (FAULT, "{kind:?}"),
    ("verify_input/src/what.rt What", "Debug"): (FAULT, "what: What"),
    ("sync_core/src/wait.rt Wait", "PartialEq"): SORTED,
    ("sync_core/src/wait.rt Wait", "Eq"): SORTED,
    ("sync_core/src/wait.rt Wait", "PartialOrd"): SORTED,
    ("sync_core/src/wait.rt Wait", "Ord"): SORTED,
}


def derived(top: Path) -> Iterator[tuple[str, str]]:
    """Each type with each trait that it derives, but for those of TAKEN."""
    for path in sorted((top / "crates").glob("*/src/**/*.rt")):
        inner = path.relative_to(top / "crates")
        text = REMARK[".rt"].sub("", path.read_text(encoding="utf-8"))
        for found in () if "tests" in inner.parts else DERIVE.finditer(text):
            rest = DERIVE.sub("", text[found.end():])
            name = TYPE.match(rest)
            for trait in sorted(set(map(str.strip, found[1].split(","))) - TAKEN):
                yield f"{inner.as_posix()} {name[1] if name else '?'}", trait


def check(top: Path, _program: Path, tally: Tally) -> None:
    found = set(derived(top))
    for what in sorted(found | USES.keys()):
        fault = None
        if what not in found:
            fault = "it is listed, and not derived"
        elif what not in USES:
            fault = "nobody is known to use it: remove it, or name its user in USES"
        else:
            place, text = USES[what]
            if text not in (top / "crates" / place).read_text(encoding="utf-8"):
                fault = f"{place} does not have {text!r}, which needs it"
        tally.tell("crates/{} derives {}".format(*what), fault)
