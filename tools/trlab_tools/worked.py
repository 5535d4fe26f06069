"""Small inputs that together use every part of the program, and the examples."""
from collections.abc import Iterator

from . import TOP

KEY = "key " + 64 * "0" + "\n"

# Two cars on a ring of ten cells; the second goes round the ring's end in the last step.
TWO_CARS = ("road 1\n" + KEY + "limit 5\nlane 0.0.......\nrule nasch 0\nsteps 4\n").encode()

# A car changes to the empty lane, and then both drive on.
TWO_LANES = (
    "road 1\n" + KEY + "limit 2\nlane 10..........\nlane ............\nrule rickert 0 2147483648\nsteps 3\n"
).encode()

# The same road with driver programs, one in bytes and one in lines, and a later rule.
OWN = (
    "road 1\n" + KEY + "limit 2\nlane 10..........\nlane ............\nrule own\n"
    "code 54524c4201000400" "0200000000000000" "0201020000000000" "0a00000100000000" "1400000000000000\n"
    "change\nside r0\njfalse r0, no\ncross\nno: stay\nend\nsteps 4\nat 2 rule vdr 7 1073741824\n"
).encode()

# A motion program that is rejected, because the car could hit the next one ahead, and its bytes.
FAST = b"motion\nget r0, speed\ngo r0\n"
FAST_CODE = bytes.fromhex("54524c4201000200" "0200000000000000" "1400000000000000")

# A motion program that is accepted, with its notes.
CAREFUL = b"notes motion\nget r0, speed ; as fast\nget r1, gap\njle r0, r1, on\ncopy r0, r1\non: go r0\n"

# A change program that tests the side cell before it changes lanes, and one that does not, so that it is rejected.
CHANGE = b"change\nside r0\ndraw r1, 1, 2147483648\nand r2, r0, r1\njtrue r2, on\nstay\non: cross\n"
RASH_CHANGE = CHANGE.replace(b"and", b"or")

# An empty road, one car, two cars and a full road.
FOUR_POINTS = (
    "sweep 1\n" + KEY + "limit 5\nlength 10\nlanes 1\nrule nasch 0\nwarm 10\nmeasure 10\n"
    "cars 0\ncars 1\ncars 2\ncars 10\n"
).encode()

# The small inputs by their names, each with the command that reads it.
TEXTS = {
    "two cars": ("run", TWO_CARS),
    "two lanes": ("run", TWO_LANES),
    "own programs": ("run", OWN),
    "a fast motion": ("check", FAST),
    "a fast motion in bytes": ("check", b"code " + FAST_CODE.hex().encode() + b"\n"),
    "a careful motion": ("check", CAREFUL),
    "a careful change": ("check", CHANGE),
    "a rash change": ("check", RASH_CHANGE),
    "four points": ("sweep", FOUR_POINTS),
}

# The command that reads an example, by the ending of its file.
COMMANDS = {".job": "run", ".rule": "check", ".sweep": "sweep"}


def name_of_output(name: str) -> str:
    """The name of the file with the output of an example."""
    base, dot, kind = name.rpartition(".")
    return f"{base}.csv" if kind == "sweep" else f"{name}.out"


def examples() -> Iterator[tuple[str, str, bytes]]:
    """The name, the command and the input of each example."""
    for path in sorted((TOP / "examples").iterdir()):
        if path.suffix in COMMANDS:
            yield path.name, COMMANDS[path.suffix], path.read_bytes()
