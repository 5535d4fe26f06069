"""The command line of a command of tools/, and the count of its checks."""
import argparse
import os
import sys
from collections.abc import Callable, Iterable, Iterator
from typing import Any, NoReturn, Optional

# The number of failures whose messages are printed.
MAX_MESSAGES = 20
# Whether each check holds, and the message if it does not.
Verdicts = Iterator[tuple[bool, str]]
# The names and the options of an argument, which `ArgumentParser.add_argument` takes.
Argument = tuple[tuple[str, ...], dict[str, Any]]


class Count:
    """The checks that passed, failed and were skipped. The first failures are printed."""

    def __init__(self) -> None:
        self.passed = self.failed = self.skipped = 0

    def note(self, holds: object, message: object) -> None:
        """Record a check, and print the message if it failed."""
        if holds:
            self.passed += 1
            return
        self.failed += 1
        if self.failed <= MAX_MESSAGES:
            print(message, flush=True)

    def note_all(self, verdicts: Iterable[tuple[object, object]]) -> None:
        """Record several checks."""
        for holds, message in verdicts:
            self.note(holds, message)

    def skip(self, message: str) -> None:
        """Record a skipped check, and print the reason."""
        self.skipped += 1
        print(f"skipped: {message}", flush=True)

    def end(self) -> int:
        """Print the count, and return the exit status."""
        skipped = f", {self.skipped} skipped" if self.skipped else ""
        print(f"{self.passed} passed, {self.failed} failed{skipped}")
        return 1 if self.failed or not self.passed + self.skipped else 0


def argument(*names: str, **options: Any) -> Argument:
    """An argument of a command, as `ArgumentParser.add_argument` takes it."""
    return names, options


WRITE = argument("--write", action="store_true", help="write the result into the files before they are compared")


def random_inputs(count: int) -> list[Argument]:
    """The arguments of a command that tries random inputs."""
    return [
        argument("number", type=int, nargs="?", default=count, help=f"how many inputs to try ({count})"),
        argument("seed", type=int, nargs="?", default=1, help="a different seed gives different inputs (1)"),
    ]


def command(main: Callable[..., Any], description: Optional[str], *arguments: Argument) -> NoReturn:
    """Call `main` with the arguments of the command line, and end with its status."""
    name = os.path.join("tools", os.path.basename(sys.argv[0]))
    parser = argparse.ArgumentParser(
        name, description=description, formatter_class=argparse.RawDescriptionHelpFormatter, allow_abbrev=False
    )
    for names, options in arguments:
        parser.add_argument(*names, **options)
    sys.exit(main(**vars(parser.parse_args())))


def test(main: Callable[..., None], description: Optional[str], *arguments: Argument) -> NoReturn:
    """The same for a command that tests: `main` records its checks in a count, which is its first argument."""

    def counted(**words: Any) -> int:
        count = Count()
        main(count, **words)
        return count.end()

    command(counted, description, *arguments)
