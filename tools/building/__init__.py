"""The parts of tools/prove_crates, which proves the crates of the program side by side."""
