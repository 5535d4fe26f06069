"""The library of the commands in tools/. A command finds it because Python looks for modules beside the script first.

Commands that use the package trlab get that of this checkout, even if another version is installed."""
import sys
from pathlib import Path

TOP = Path(__file__).resolve().parents[2]
sys.path.insert(1, str(TOP / "python"))
