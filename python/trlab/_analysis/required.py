"""The libraries that the analysis requires, or an error that says how to install them."""
from __future__ import annotations

from .._libraries import library

# Before the imports, which say nothing about how to install a missing library.
library("numpy"), library("pandas")

import numpy as numpy  # noqa: E402
import pandas as pandas  # noqa: E402
