"""Inputs made for tests, and the second reading of the rules that they compare with."""
