"""Published rules as Python functions. docs/MODELS.md has their sources, and the parts of them that cannot be written.

    python3 -m trlab.rule examples/published_rules.py nasch p=1/4 > nasch.rule

    import trlab
    from published_rules import nasch, symmetric
    job = trlab.Job(limit=5, length=200, lanes=2, density=0.1, rule=trlab.Own(nasch(p=0.25), symmetric), steps=100)
"""
import trlab


@trlab.motion
def nasch(car, p=0.5):
    """Nagel and Schreckenberg (1992)."""
    v = min(car.speed + 1, car.limit, car.gap)
    if car.draw(p):
        v = max(v - 1, 0)
    return v


@trlab.motion
def slow_to_start(car, p=0.01, p0=0.5):
    """Velocity-dependent randomization (VDR), Barlovic and others (1998): stopped cars brake with probability p0."""
    brakes = car.draw(p0 if car.speed == 0 else p)
    v = min(car.speed + 1, car.limit, car.gap)
    if brakes:
        v = max(v - 1, 0)
    return v


@trlab.motion
def takayasu(car, ps=0.5, p=0.0):
    """T2, after Takayasu and Takayasu (1993): a stopped car with only one empty cell ahead stays with probability ps."""
    v = min(car.speed + 1, car.limit, car.gap)
    if car.speed == 0 and car.gap == 1 and car.draw(ps):
        v = 0
    if car.draw(p):
        v = max(v - 1, 0)
    return v


@trlab.motion
def benjamin(car, ps=0.5, p=0.0):
    """BJH, after Benjamin, Johnson and Hui (1996): a car that had no gap a step ago stays with probability ps."""
    # A step changes the gap by headspeed - speed, so that the gap a step ago was gap + speed - headspeed.
    was_blocked = car.speed == 0 and car.gap == car.headspeed
    v = min(car.speed + 1, car.limit, car.gap)
    if was_blocked and car.draw(ps):
        v = 0
    if car.draw(p):
        v = max(v - 1, 0)
    return v


@trlab.motion
def cruise_control(car, p=0.5):
    """Nagel and Paczuski (1995): a driver who drives freely at the limit does not brake at random."""
    if car.speed == car.limit and car.gap >= car.limit:
        return car.limit
    v = min(car.speed + 1, car.limit, car.gap)
    if car.draw(p):
        v = max(v - 1, 0)
    return v


@trlab.motion
def anticipating(car):
    """Brake early behind a stopped car: use half the gap, but at least one cell."""
    room = car.gap
    if car.headspeed == 0:
        room = min(room, max(car.gap // 2, 1))
    return min(car.speed + 1, car.limit, room)


def is_near(car, h):
    """Whether the time headway, gap / speed, is below min(speed, h) steps."""
    for v in range(1, h):
        if car.speed == v:
            return car.gap < v * v
    return car.gap < h * car.speed


@trlab.motion
def comfortable(car, p=0.1, p0=0.5, pb=0.94, h=6):
    """Comfortable driving, after Knospe and others (2000), but a slower car ahead takes the place of its brake light."""
    follows = car.headspeed < car.speed and is_near(car, h)
    brakes = car.draw(pb if follows else p0 if car.speed == 0 else p)
    v = min(car.speed if follows else car.speed + 1, car.limit, car.gap)
    if brakes:
        v = max(v - 1, 0)
    return v


@trlab.change
def symmetric(car, p=1.0):
    """Rickert and others (1996): change lanes if the car is hindered, and the other lane has room ahead and behind."""
    is_hindered = car.gap < car.speed + 1
    has_room = car.side and car.sidegap > car.speed + 1 and car.sideback > car.limit
    return is_hindered and has_room and car.draw(p, word=1)


@trlab.change
def asymmetric(car, p=1.0):
    """Their asymmetric version: cars on lane 1 return to lane 0 also if they are not hindered."""
    wants = car.lane == 1 or car.gap < car.speed + 1
    has_room = car.side and car.sidegap > car.speed + 1 and car.sideback > car.limit
    return wants and has_room and car.draw(p, word=1)
