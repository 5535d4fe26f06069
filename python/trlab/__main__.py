"""The command `trlab`, as `pip` installs it, and `python -m trlab`: run the program with the same arguments."""
import sys

from ._runs.location import find_program
from ._runs.node import command_of
from ._runs.systems import replace_process


def main() -> None:
    """Replace this process with the program, which gets its arguments and streams."""
    try:
        replace_process([*command_of(find_program()), *sys.argv[1:]])
    except OSError as error:
        sys.exit(f"trlab: {error}")


if __name__ == "__main__":
    main()
