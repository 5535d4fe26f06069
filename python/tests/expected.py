"""Numbers that tests expect in files and in errors, by name."""

ALWAYS = 2**31
HALF, QUARTER, THIRD, TENTH = 2**30, 2**29, 715827883, 214748365
"""Probabilities in files: multiples of 1 / 2**31, rounded to the nearest one."""

NEEDS_TWO_LANES = 4
"""The cause of a rejected input: a rule with lane changes, and a road with one lane."""

MORE_THAN_THE_GAP = 10
"""The verifier's reason: the new speed may be more than the gap."""

WRONG_ARGUMENTS, DEVICE_FAILED = 2, 4
"""Exit statuses of the program."""
