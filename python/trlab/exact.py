"""Numbers that follow from proved laws of traffic (see docs/LAWS.md), without a simulation and without noise.

    from trlab import exact

    exact.flow(12, 6, "1/4")                        # the mean flow of a ring with v_max = 1
    exact.triangle(5, "3/20")                       # the flow without randomization
    exact.minimum_principle("000..0....", 3, 1000)  # how far each car goes without randomization

The laws are proved; the computation in this module is tested, also against runs of the program. Results are fractions
or whole numbers, which `float` converts. Lengths are in cells, times in steps, and a flow is in cars per step and lane.
A wrong argument raises `ParameterError`. No other package is needed."""
from ._exact.minimum import distances, minimum_principle, positions
from ._exact.rules import gap_rule
from ._exact.stationary import (
    braking_probability, clusters, flow, flow_as_float, stationary_probability, stationary_weight,
)
from ._exact.triangle import relaxed_from, triangle

__all__ = [
    "braking_probability", "clusters", "distances", "flow", "flow_as_float", "gap_rule", "minimum_principle",
    "positions",
    "relaxed_from", "stationary_probability", "stationary_weight", "triangle",
]
