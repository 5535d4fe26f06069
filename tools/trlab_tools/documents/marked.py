"""Tables that a command writes into a document, between two comments: one of its own, and one that ends it."""
import sys
from pathlib import Path

END = "<!-- end -->\n"


def put(document: Path, begin: str, table: str) -> None:
    """Put a table between the comment `begin` and the next end."""
    before, marker, rest = document.read_text("utf-8").partition(begin)
    _, end, after = rest.partition(END)
    if not (marker and end):
        sys.exit(f"{document} has no place for the table")
    document.write_text(before + marker + table + end + after, "utf-8")
