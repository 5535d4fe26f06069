"""Drivers on two lanes who overtake on lane 1, and return to lane 0 when there is room.

    python3 -m trlab.rule examples/overtake.py overtake p=0.8 > overtake.rule

    import trlab, overtake
    job = trlab.Job(limit=5, length=200, lanes=2, density=0.1, steps=100,
                    rule=trlab.Own(overtake.drive(p=0.2), overtake.overtake(p=0.8)))
"""
import trlab

BEHIND = 3  # cells that must be free behind on the other lane, besides those for the limit


def is_free(car):
    return car.side and car.sideback >= car.limit + BEHIND


@trlab.motion
def drive(car, p=0.25):
    v = car.speed
    if v < car.limit:
        v += 1
    if v > car.gap:
        v = car.gap
    if v > 0 and car.draw(p):
        v -= 1
    return v


@trlab.change
def overtake(car, p=0.5, ahead=2):
    is_slow = car.gap <= car.speed
    if car.lane == 0:
        return is_slow and car.sidegap > car.gap and is_free(car) and car.draw(p)
    return not is_slow and car.sidegap >= ahead * car.speed and is_free(car)
