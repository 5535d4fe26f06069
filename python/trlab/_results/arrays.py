"""numpy, or an error that says how to install it."""
from .._errors import MissingLibraryError

try:
    import numpy as numpy
except ModuleNotFoundError as missing:
    if missing.name != "numpy":
        raise
    raise MissingLibraryError("this needs numpy, which is not installed: pip install numpy pandas matplotlib") from None
