"""Places in texts that have to be there."""
import re
from typing import AnyStr, Union


def match_in(pattern: Union[AnyStr, re.Pattern[AnyStr]], text: AnyStr, flags: int = 0, begin: int = 0) -> re.Match[AnyStr]:
    """The first match of a pattern from a place on; a ValueError if there is none."""
    match = re.compile(pattern, flags).search(text, begin)
    if match is None:
        raise ValueError(f"nothing matches {pattern!r}")
    return match
