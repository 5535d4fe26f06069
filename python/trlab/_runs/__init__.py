"""Runs: find the program, run it, keep its outputs."""
