"""Drivers who leave `g` cells free ahead, and brake at random with probability `p`.

    python3 -m trlab.rule examples/keep_distance.py g=2 > keep_distance.rule
"""
import trlab


@trlab.motion
def keep_distance(car, g=1, p=0.25):
    v = min(car.speed + 1, car.limit, max(car.gap - g, 0))
    if car.draw(p):
        v = max(v - 1, 0)
    return v
