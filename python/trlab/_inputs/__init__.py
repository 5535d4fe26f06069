"""Inputs: jobs and sweeps, which are checked when they are made."""
