"""The rules without lane changes whose runs or whose flow are known exactly."""
from __future__ import annotations

from typing import Optional

from .._errors import ParameterError
from .._inputs.numbers import Probability, parts, shown
from .._inputs.rules import Nasch, Own, Rickert, Rule, SlowToStart, need_rule

gap_rule = Own("get r0, limit\nget r1, gap\nmin r0, r0, r1\ngo r0\n")
"""The rule with the new speed min(limit, gap): cars reach their speed at once, and never brake at random (Fukui and
Ishibashi 1996, J. Phys. Soc. Japan 65, 1868). No rule without lane changes is faster (proved as `nobody_beats_gap`)."""


def braking_of_nasch(rule: Rule) -> Optional[Probability]:
    """The braking probability of a rule that is `Nasch` or the same under another name (law
    `rules_reduce_to_nasch`)."""
    if isinstance(rule, SlowToStart) and parts(rule.brake) == parts(rule.stopped):
        return rule.brake
    if isinstance(rule, Nasch) or isinstance(rule, Rickert) and parts(rule.change) == 0:
        return rule.brake
    return None


def is_exact(rule: Rule) -> bool:
    """Whether the runs of a rule are known exactly: it has no randomization and no lane changes."""
    return need_rule(rule).lines() == gap_rule.lines() or braking_of_nasch(rule) == 0


def steps_to_accelerate(rule: Rule, limit: int) -> int:
    """The steps after which acceleration holds no car back, which LAWS.md calls a. Raises `ParameterError` for a rule
    whose runs are not known exactly."""
    if not is_exact(rule):
        raise ParameterError(
            "exact distances need a rule without randomization and lane changes, `Nasch(0)` or "
            f"`trlab.exact.gap_rule`, not {shown(rule)}: `trlab.exact.minimum_principle` is a bound for every rule "
            "without lane changes"
        )
    return limit if limit > 1 and braking_of_nasch(rule) == 0 else 0
