"""Where things stand in the repository, and how long the program may run in a check."""

from pathlib import Path

TOP = Path(__file__).resolve().parent.parent
PROGRAM = Path("crates/script_main/out/script_main")  # from the top
SECONDS = 120
