"""Checks of the gate: the programs that were proved, and the files that must agree with one another."""
