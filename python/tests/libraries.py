"""The libraries of the analysis for its tests, which are skipped if the libraries are not installed."""
import unittest

try:
    import hypothesis as hypothesis
    import matplotlib
    import numpy as numpy
    import pandas as pandas

    matplotlib.use("Agg")
    from matplotlib import pyplot as pyplot
except ModuleNotFoundError as missing:
    raise unittest.SkipTest(f"{missing.name} is not installed") from None
